//! The lookup of a feature's name as it is and, with the feature `before`, as it was before R-2 (both proved), and plain Rust's `match`, on the same words in one run.
mod common;
#[allow(dead_code)]
mod plain;
use common::*;
use plain::NAMES;
use std::hint::black_box;
use std::time::Instant;

// inlined in the exported function (`names`), and a function of its own, called by it (`called`)
extern "C" {
    fn names_now(s: *const u8, n: usize) -> u32;
    fn called_now(s: *const u8, n: usize) -> u32;
}

#[cfg(feature = "before")]
extern "C" {
    fn names_before(s: *const u8, n: usize) -> u32;
    fn called_before(s: *const u8, n: usize) -> u32;
}

/// Called through a pointer, as the others are.
unsafe extern "C" fn by_match(s: *const u8, n: usize) -> u32 {
    match std::slice::from_raw_parts(s, n) {
        b"camera" => 0,
        b"display-capture" => 1,
        b"downloads-without-user-activation" => 2,
        b"forms" => 3,
        b"fullscreen" => 4,
        b"geolocation" => 5,
        b"microphone" => 6,
        b"modals" => 7,
        b"orientation-lock" => 8,
        b"payment" => 9,
        b"plugins" => 10,
        b"pointer-lock" => 11,
        b"popups" => 12,
        b"presentation" => 13,
        b"scripts" => 14,
        b"top-navigation" => 15,
        b"usb" => 16,
        _ => 17,
    }
}

/// Features of the W3C's list that are none of the seventeen.
const OTHERS: [&str; 20] = [
    "accelerometer", "ambient-light-sensor", "autoplay", "battery", "bluetooth", "clipboard-read", "clipboard-write", "encrypted-media", "gamepad", "gyroscope",
    "hid", "idle-detection", "magnetometer", "midi", "picture-in-picture", "screen-wake-lock", "serial", "storage-access", "web-share", "xr-spatial-tracking",
];

fn known(r: &mut Rng) -> Vec<u8> { NAMES[r.below(17)].as_bytes().to_vec() }

/// A name with one byte changed.
fn near(r: &mut Rng) -> Vec<u8> {
    let mut w = known(r);
    let at = r.below(w.len());
    let was = w[at];
    while w[at] == was { w[at] = b'a' + r.below(26) as u8; }
    w
}

/// Another feature's name, or up to 23 random letters.
fn unknown(r: &mut Rng) -> Vec<u8> {
    if r.below(2) == 0 { OTHERS[r.below(20)].as_bytes().to_vec() } else { (0..r.below(24)).map(|_| b'a' + r.below(26) as u8).collect() }
}

/// Words one after the other in one text, as an attribute has them.
struct Words { text: Vec<u8>, at: Vec<(usize, usize)> }

fn words(count: usize, mut next: impl FnMut(usize) -> Vec<u8>) -> Words {
    let mut w = Words { text: vec![], at: vec![] };
    for i in 0..count {
        let word = next(i);
        w.at.push((w.text.len(), word.len()));
        w.text.extend(word);
        w.text.push(b' ');
    }
    w
}

type Lookup = unsafe extern "C" fn(*const u8, usize) -> u32;

#[cfg(feature = "before")]
const LOOKUPS: [Lookup; 5] = [by_match, names_now, called_now, names_before, called_before];
#[cfg(not(feature = "before"))]
const LOOKUPS: [Lookup; 3] = [by_match, names_now, called_now];

fn time(kind: &str, mut w: Words, r: &mut Rng) {
    let mut times = LOOKUPS.map(|_| vec![]);
    let mut order: Vec<usize> = (0..LOOKUPS.len()).collect();
    for _ in 0..300 {
        // the words in a new order for each round, the same for all lookups, so that no branch is predicted from the last round; the lookups in a new order too
        for i in (1..w.at.len()).rev() { let j = r.below(i + 1); w.at.swap(i, j); }
        for i in (1..order.len()).rev() { let j = r.below(i + 1); order.swap(i, j); }
        for &k in &order {
            let (text, lookup) = (w.text.as_ptr(), black_box(LOOKUPS[k]));
            let t = Instant::now();
            for &(from, n) in &w.at { black_box(unsafe { lookup(black_box(text.add(from)), n) }); }
            times[k].push(t.elapsed().as_nanos() as f64 / w.at.len() as f64);
        }
    }
    let t = times.map(median);
    let before = |k: usize| t.get(k).map_or(String::new(), |b| format!("before {b:.1}, "));
    println!("names, {kind}: plain Rust {:.1} ns; inlined: {}now {:.1}, now / plain Rust {:.2}; called: {}now {:.1}, now / plain Rust {:.2}", t[0], before(3), t[1], t[1] / t[0], before(4), t[2], t[2] / t[0]);
}

fn same(w: &[u8]) {
    let answers = LOOKUPS.map(|lookup| unsafe { lookup(w.as_ptr(), w.len()) });
    assert!(answers.iter().all(|a| *a == answers[0]), "{w:?}: {answers:?}");
}

fn main() {
    let mut r = Rng(17);
    let mut compared = std::collections::BTreeSet::new();
    // every name; every name with one byte changed to every value, with one byte more at every place, and cut at every place; random words
    for (i, name) in NAMES.iter().enumerate() {
        assert_eq!(i as u32, unsafe { names_now(name.as_ptr(), name.len()) });
        for at in 0..=name.len() {
            compared.insert(name.as_bytes()[..at].to_vec());
            for b in 0..=255 {
                let mut w = name.as_bytes().to_vec();
                w.insert(at, b);
                compared.insert(w.clone());
                if at < name.len() {
                    w.remove(at + 1);
                    compared.insert(w);
                }
            }
        }
    }
    for _ in 0..100_000 { compared.insert(unknown(&mut r)); }
    compared.iter().for_each(|w| same(w));
    println!("names: {} words, no answer differs", compared.len());
    let count = 6144;
    let mut s = Rng(std::env::args().nth(1).map_or(5, |seed| seed.parse().expect("a seed is a number")));
    time("mix", words(count, |i| match i % 3 { 0 => known(&mut s), 1 => near(&mut s), _ => unknown(&mut s) }), &mut r);
    time("known names", words(count, |_| known(&mut s)), &mut r);
    time("near misses", words(count, |_| near(&mut s)), &mut r);
    time("unknown words", words(count, |_| unknown(&mut s)), &mut r);
}
