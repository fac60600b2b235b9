//! Random calls over lent memory through the proved library: what each call leaves of every lent byte. Run by tests/lent.
//! Each session runs in two tables at once, one in zeros and exactly long enough, one in a longer run of random bytes: their answers must be the same.
//! After a call every byte is compared with what the layout says (docs/DECISIONS.md 93), but for the slot that an accepted load takes.
mod common;
mod proved;
use common::Rng;
use proved::{Answer, Frame};
use std::collections::BTreeMap;

const DOCUMENTS: usize = 64;
/// The places of a table: a mark, the count, the last serial given, the serials, the numbers of the slots, the slots. Numbers have four bytes, the lowest first; a slot's number has one.
const MARK: &[u8] = b"flourviol-table1";
const COUNT: usize = MARK.len();
const LAST: usize = COUNT + 4;
const SERIALS: usize = LAST + 4;
const SLOT_NUMBERS: usize = SERIALS + 4 * DOCUMENTS;
const SLOTS: usize = SLOT_NUMBERS + DOCUMENTS;
const GUARD: usize = 64;
const LIMIT: usize = 4096;
const MIB: usize = 1 << 20;

/// What each call must have answered at least once: 0 is an acceptance.
const MUST: [(&str, &[u32]); 8] = [
    ("new_table", &[0, 9]),
    ("load_top", &[0, 3, 4, 6, 7]),
    ("load_framed", &[0, 1, 3, 4, 5, 6, 7]),
    ("unload", &[0, 1]),
    ("question", &[0, 1, 2, 3]),
    ("enabled_features", &[0, 1]),
    ("list_beneath", &[0, 1, 9]),
    ("forecast", &[0, 1, 3, 4]),
];

fn fail(what: String) -> ! {
    println!("{what}");
    std::process::exit(1);
}

/// A run that is lent, with guards before and behind it, and its bytes as they were.
struct Lent { whole: Vec<u8>, was: Vec<u8>, from: usize, to: usize }

impl Lent {
    fn new(r: &mut Rng, size: usize, zeros: bool) -> Lent {
        let from = GUARD + r.below(16);
        let whole: Vec<u8> = (0..from + size + GUARD).map(|i| if zeros && (from..from + size).contains(&i) { 0 } else { r.next() as u8 }).collect();
        Lent { was: whole.clone(), whole, from, to: from + size }
    }
    fn run(&mut self) -> &mut [u8] { &mut self.whole[self.from..self.to] }
    fn first(&self) -> isize { (0..self.whole.len()).find(|&i| self.whole[i] != self.was[i]).map_or(-1, |i| i as isize - self.from as isize) }
    /// Every byte is as it was.
    fn kept(&self, what: &str) { if self.whole != self.was { fail(format!("{what}: byte {} of the run is another", self.first())); } }
    /// Every byte is as the layout says after the change.
    fn changed(&mut self, what: &str, change: &Change) {
        let (from, size) = (self.from, proved::table_bytes());
        let t = &mut self.was[from..from + size];
        match change {
            Change::New => {
                t[..COUNT].copy_from_slice(MARK);
                put(t, COUNT, 0);
                put(t, LAST, 0);
                for i in 0..DOCUMENTS { t[SLOT_NUMBERS + i] = i as u8; }
            }
            Change::Load => {
                let (count, last) = (number(t, COUNT) as usize, number(t, LAST));
                put(t, SERIALS + 4 * count, last + 1);
                put(t, LAST, last + 1);
                put(t, COUNT, count as u32 + 1);
                let bytes = (size - SLOTS) / DOCUMENTS;
                let slot = SLOTS + bytes * t[SLOT_NUMBERS + count] as usize;
                t[slot..slot + bytes].copy_from_slice(&self.whole[from + slot..from + slot + bytes]);
            }
            Change::Unload(gone) => {
                let mut k = 0;
                for i in 0..number(t, COUNT) as usize {
                    let serial = number(t, SERIALS + 4 * i);
                    if gone.contains(&serial) { continue; }
                    put(t, SERIALS + 4 * k, serial);
                    t.swap(SLOT_NUMBERS + k, SLOT_NUMBERS + i);
                    k += 1;
                }
                put(t, COUNT, k as u32);
            }
        }
        self.kept(what);
    }
}

fn number(t: &[u8], at: usize) -> u32 { u32::from_le_bytes(t[at..at + 4].try_into().unwrap()) }
fn put(t: &mut [u8], at: usize, x: u32) { t[at..at + 4].copy_from_slice(&x.to_le_bytes()) }

/// What an accepted call changes: a new table, a load, an unload of documents with these serials.
enum Change { New, Load, Unload(Vec<u32>) }

/// The loaded documents, each with its container's serial, 0 at the top.
type Tree = BTreeMap<u32, u32>;

/// A document and all beneath it: containers have lower serials.
fn with_beneath(tree: &Tree, serial: u32) -> Vec<u32> {
    let mut gone = vec![serial];
    for (&s, c) in tree { if gone.contains(c) { gone.push(s); } }
    gone
}

#[derive(Default)]
struct Counts { calls: usize, answers: BTreeMap<(&'static str, u32), usize>, values: BTreeMap<&'static str, usize> }

impl Counts {
    fn note(&mut self, call: &'static str, a: Answer) {
        self.calls += 1;
        *self.answers.entry((call, a.refusal)).or_default() += 1;
        if a.refusal != 0 && (a.value != 0 || a.second != 0) { fail(format!("{call}: a refusal with other numbers: {a:?}")); }
        let kind = match (call, a.refusal, a.value, a.second) {
            ("question", 0, 1, 0) => "Enabled",
            ("question", 0, 2, 0) => "Disabled",
            ("load_top" | "load_framed", 0, _, 1) => "malformed header",
            ("unload", 0, 2.., 0) => "unload of several",
            ("list_beneath", 0, 0, 0) => "empty listing",
            ("list_beneath", 0, _, 0) => "listing of some",
            ("enabled_features" | "forecast", 0, 0, 0) => "no feature enabled",
            ("enabled_features" | "forecast", 0, m, 0) if m < 1 << 17 => "features enabled",
            ("enabled_features" | "forecast" | "question", 0, ..) => fail(format!("{call}: no such answer: {a:?}")),
            _ => return,
        };
        *self.values.entry(kind).or_default() += 1;
    }
}

fn of<'a>(r: &mut Rng, s: &[&'a str]) -> &'a str { s[r.below(s.len())] }

fn origin(r: &mut Rng) -> Vec<u8> {
    let t = of(r, &["", "null", "https://a.example", "https://b.example", "http://c.example:8080", "https://x.a.example", "https://a.example:443", "ftp://a.example", "https://A.example", "https://"]);
    if r.below(40) == 0 { return (0..r.below(300)).map(|_| r.next() as u8).collect(); }
    if r.below(40) == 0 { return format!("https://{}", "h".repeat(250 + r.below(6))).into_bytes(); }
    t.as_bytes().to_vec()
}

fn good_origin(r: &mut Rng) -> Vec<u8> { of(r, &["", "null", "null", "https://a.example", "https://b.example", "http://c.example:8080"]).as_bytes().to_vec() }

const WORDS: [&str; 12] = ["camera", "forms", "fullscreen", "usb", "payment", "scripts", "*", "'self'", "'src'", "https://a.example", "https://*.a.example", "'none'"];

/// A text of about so many bytes of words, at times a little over the limit or exactly there.
fn text(r: &mut Rng, words: &[&str], between: &[&str]) -> Vec<u8> {
    let mut t = String::new();
    for _ in 0..r.below(12) { t += of(r, words); t += of(r, between); }
    let mut t = t.into_bytes();
    match r.below(60) { 0 => t.resize(LIMIT, b' '), 1 => t.resize(LIMIT + 1, b' '), 2 => t = vec![b'x'; LIMIT + 1 + r.below(2000)], _ => {} }
    t
}

fn header(r: &mut Rng) -> Vec<u8> {
    if r.below(8) == 0 { return text(r, &WORDS, &["", "=", "(", ")", ", "]); }
    let mut t: Vec<String> = vec![];
    for _ in 0..r.below(6) { t.push(format!("{}={}", of(r, &WORDS[..6]), of(r, &["*", "self", "()", "(self)", "(self \"https://a.example\")", "(\"https://*.a.example\" \"http://c.example:8080\")", "1"]))); }
    let mut t = t.join(", ").into_bytes();
    if r.below(60) == 0 { t = format!("camera=(\"https://{}\")", "h".repeat(253)).into_bytes(); while t.len() + 20 < LIMIT { t.extend_from_slice(b", usb=(self)"); } t.resize(LIMIT + r.below(2), b' '); }
    t
}

fn sandbox(r: &mut Rng) -> Vec<u8> { text(r, &["allow-same-origin", "ALLOW-SCRIPTS", "allow-forms", "x"], &[" ", "\t"]) }

/// The same call in both tables: the same answer, and what it leaves; `change` is what it changes if it is accepted.
fn both(tables: &mut [Lent; 2], counts: &mut Counts, call: &'static str, change: Option<Change>, f: &mut dyn FnMut(&mut [u8], usize) -> Answer) -> Answer {
    let a = [0, 1].map(|k| {
        let a = f(tables[k].run(), k);
        match &change { Some(c) if a.refusal == 0 => tables[k].changed(call, c), _ => tables[k].kept(call) }
        a
    });
    if a[0] != a[1] { fail(format!("{call}: {:?} in zeros, {:?} in other bytes", a[0], a[1])); }
    counts.note(call, a[0]);
    a[0]
}

fn listing(r: &mut Rng, tables: &mut [Lent; 2], counts: &mut Counts, serial: u32) {
    let (size, fill) = (if r.below(3) == 0 { r.below(4) } else { r.below(80) }, r.next() as u32);
    let was: Vec<u32> = (0..size as u32 + 16).map(|i| fill.wrapping_mul(i + 1)).collect();
    let mut outs = [was.clone(), was.clone()];
    let a = both(tables, counts, "list_beneath", None, &mut |t, k| proved::list_beneath(t, serial, &mut outs[k][8..8 + size]));
    let n = if a.refusal == 0 { a.value as usize } else { 0 };
    if outs[0] != outs[1] { fail("list_beneath: the listings differ".into()); }
    if n > size || outs[0][..8] != was[..8] || outs[0][8 + n..] != was[8 + n..] { fail(format!("list_beneath: a place past the {n} changed")); }
    if !outs[0][8..8 + n].windows(2).all(|w| w[0] < w[1]) || outs[0][8..8 + n].iter().any(|&s| s <= serial) { fail("list_beneath: serials that don't ascend".into()); }
}

fn session(r: &mut Rng, counts: &mut Counts, calls: usize, longer: usize) {
    let size = proved::table_bytes();
    let mut tables = [Lent::new(r, size, true), Lent::new(r, size + longer, false)];
    both(&mut tables, counts, "new_table", Some(Change::New), &mut |t, _| proved::new_table(t));
    let (mut tree, mut last) = (Tree::new(), 0u32);
    // how eagerly the session unloads
    let unloads = 1 + r.below(12);
    for _ in 0..calls {
        let serial = if tree.is_empty() || r.below(12) == 0 { r.below(last as usize + 3) as u32 } else { *tree.keys().nth(r.below(tree.len())).unwrap() };
        match r.below(40 + unloads) {
            0..=4 => {
                let (o, h) = (if r.below(4) > 0 { good_origin(r) } else { origin(r) }, header(r));
                let full = tree.len() == DOCUMENTS;
                let a = both(&mut tables, counts, "load_top", Some(Change::Load), &mut |t, _| proved::load_top(t, &o, &h));
                if a.refusal == 0 { last += 1; tree.insert(last, 0); if full || a.value != last { fail(format!("load_top: {a:?}")); } }
                if a.refusal == 6 && !full { fail("load_top: the table isn't full".into()); }
            }
            5..=13 => {
                let (o, src, allow, h) = (if r.below(6) > 0 { good_origin(r) } else { origin(r) }, if r.below(8) > 0 { good_origin(r) } else { origin(r) }, text(r, &WORDS, &[" ", "; ", "\n", " ; "]), header(r));
                let marks = if r.below(4) > 0 { r.below(2) as u32 } else { r.below(4) as u32 | (r.next() as u32) << 2 };
                let s = sandbox(r);
                let f = Frame { src: &src, marks, allow: &allow, sandbox: if marks / 2 % 2 == 1 || r.below(9) == 0 { &s } else { b"" } };
                let full = tree.len() == DOCUMENTS;
                let a = both(&mut tables, counts, "load_framed", Some(Change::Load), &mut |t, _| proved::load_framed(t, serial, &o, f, &h));
                if a.refusal == 0 { last += 1; tree.insert(last, serial); if full || a.value != last { fail(format!("load_framed: {a:?}")); } }
                if a.refusal == 6 && !full { fail("load_framed: the table isn't full".into()); }
            }
            14..=22 => { let (o, f) = (origin(r), r.below(19) as u32); both(&mut tables, counts, "question", None, &mut |t, _| proved::question(t, serial, f, &o)); }
            23..=27 => { both(&mut tables, counts, "enabled_features", None, &mut |t, _| proved::enabled_features(t, serial)); }
            28..=32 => listing(r, &mut tables, counts, serial),
            33..=39 => {
                let (src, allow, s, marks) = (origin(r), text(r, &WORDS, &[" ", "; "]), sandbox(r), r.below(4) as u32);
                let f = Frame { src: &src, marks, allow: &allow, sandbox: if marks > 1 { &s } else { b"" } };
                both(&mut tables, counts, "forecast", None, &mut |t, _| proved::forecast(t, serial, f));
            }
            _ => {
                let gone = with_beneath(&tree, serial);
                let a = both(&mut tables, counts, "unload", Some(Change::Unload(gone.clone())), &mut |t, _| proved::unload(t, serial));
                if a.refusal == 0 {
                    if !tree.contains_key(&serial) || a.value as usize != gone.len() { fail(format!("unload: {a:?}")); }
                    tree.retain(|s, _| !gone.contains(s));
                }
            }
        }
    }
}

/// Runs too short by a byte, exactly long enough, and 4 MiB.
fn sizes(r: &mut Rng, counts: &mut Counts) {
    let size = proved::table_bytes();
    if size > 4 * MIB { fail(format!("a table has {size} bytes")); }
    for short in [size - 1, 0, 1, 15, 16, size / 2] {
        let mut l = Lent::new(r, short, false);
        let a = proved::new_table(l.run());
        l.kept("new_table in too short a run");
        counts.note("new_table", a);
        if a.refusal != 9 { fail(format!("new_table in {short} bytes: {a:?}")); }
    }
    for longer in [0, 1, 4 * MIB - size] { session(r, counts, 300, longer); }
}

/// Refusal 7: a new table in which the last serial but one was given.
fn spent(r: &mut Rng, counts: &mut Counts) {
    let mut tables = [0, 100].map(|longer| Lent::new(r, proved::table_bytes() + longer, longer == 0));
    let start = |tables: &mut [Lent; 2], counts: &mut Counts, loads: usize, last: u32| {
        both(tables, counts, "new_table", Some(Change::New), &mut |t, _| proved::new_table(t));
        for _ in 0..loads { both(tables, counts, "load_top", Some(Change::Load), &mut |t, _| proved::load_top(t, b"https://a.example", b"camera=()")); }
        for t in tables.iter_mut() { put(t.run(), LAST, last); t.was = t.whole.clone(); }
    };
    let wants = |what: &str, a: Answer, want: [u32; 2]| if [a.refusal, a.value] != want { fail(format!("{what}: {a:?}, wanted {want:?}")); };
    let top = |tables: &mut [Lent; 2], counts: &mut Counts, what: &str, origin: &[u8], want| wants(what, both(tables, counts, "load_top", Some(Change::Load), &mut |t, _| proved::load_top(t, origin, b"")), want);
    let framed = |tables: &mut [Lent; 2], counts: &mut Counts, what: &str, container, want| {
        let f = Frame { src: b"", marks: 0, allow: b"", sandbox: b"" };
        wants(what, both(tables, counts, "load_framed", Some(Change::Load), &mut |t, _| proved::load_framed(t, container, b"", f, b"")), want)
    };
    let unload = |tables: &mut [Lent; 2], counts: &mut Counts, what: &str, serial| wants(what, both(tables, counts, "unload", Some(Change::Unload(vec![serial])), &mut |t, _| proved::unload(t, serial)), [0, 1]);
    let t = &mut tables;
    start(t, counts, 0, u32::MAX - 1);
    top(t, counts, "the last serial", b"https://a.example", [0, u32::MAX]);
    top(t, counts, "a load after it", b"https://a.example", [7, 0]);
    framed(t, counts, "a framed load after it", u32::MAX, [7, 0]);
    wants("the last document", both(t, counts, "question", None, &mut |t, _| proved::question(t, u32::MAX, 0, b"")), [0, 1]);
    unload(t, counts, "its unload", u32::MAX);
    top(t, counts, "a load into the empty table", b"https://a.example", [7, 0]);
    // two serials are left
    start(t, counts, 0, u32::MAX - 2);
    top(t, counts, "the last serial but one", b"https://a.example", [0, u32::MAX - 1]);
    framed(t, counts, "the last serial, of a frame", u32::MAX - 1, [0, u32::MAX]);
    top(t, counts, "a load after both", b"https://a.example", [7, 0]);
    // 6 comes before 7
    start(t, counts, DOCUMENTS - 1, u32::MAX - 1);
    framed(t, counts, "the 64th document", 1, [0, u32::MAX]);
    top(t, counts, "a load into a full table", b"null", [6, 0]);
    framed(t, counts, "a framed load into a full table", 5, [6, 0]);
    unload(t, counts, "an unload", 2);
    top(t, counts, "a load after it", b"null", [7, 0]);
}

fn main() {
    let args: Vec<u64> = std::env::args().skip(1).map(|s| s.parse().expect("a number")).collect();
    let (calls, seed) = (args.first().copied().unwrap_or(200_000) as usize, args.get(1).copied().unwrap_or(1));
    let mut r = Rng(0x9E3779B97F4A7C15 ^ seed.wrapping_mul(0xD1B54A32D192ED03) | 1);
    // refusal 7 is counted apart: the random sessions must fill a table by themselves
    let mut last = Counts::default();
    spent(&mut r, &mut last);
    let mut counts = Counts::default();
    sizes(&mut r, &mut counts);
    while counts.calls < calls {
        let (n, longer) = (200 + r.below(1500), if r.below(4) == 0 { 0 } else { r.below(5000) });
        session(&mut r, &mut counts, n, longer);
    }
    for call in ["load_top", "load_framed"] { *counts.answers.entry((call, 7)).or_default() += last.answers[&(call, 7)]; }
    println!("{} calls, each in two tables of {} bytes", counts.calls + last.calls, proved::table_bytes());
    for (call, refusals) in MUST {
        let of = |n: u32| counts.answers.get(&(call, n)).copied().unwrap_or(0);
        println!("{call}: {} accepted{}", of(0), (1..=9).filter(|&n| of(n) > 0).map(|n| format!(", {} refused with {n}", of(n))).collect::<String>());
        for &n in refusals { if of(n) == 0 { fail(format!("{call}: no call was answered {n}")); } }
        for n in 0..10 { if of(n) > 0 && !refusals.contains(&n) { fail(format!("{call}: {n} is no answer of it")); } }
    }
    println!("{}", counts.values.iter().map(|(k, n)| format!("{k} {n}")).collect::<Vec<_>>().join(", "));
    for kind in ["Enabled", "Disabled", "malformed header", "unload of several", "empty listing", "listing of some", "no feature enabled", "features enabled"] { if !counts.values.contains_key(kind) { fail(format!("no answer was: {kind}")); } }
    println!("all good");
}
