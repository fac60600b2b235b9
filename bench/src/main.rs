//! Times the proved library against plain Rust over the same headers and origins, and compares every answer.
mod common;
mod plain;
use common::*;
use plain::*;
use std::hint::black_box;
use std::time::Instant;

extern "C" {
    fn speed_tidy(s: *const u8, n: usize, out: *mut u8, m: usize) -> u64;
    fn speed_settle(s: *const u8, n: usize, run: *mut u8, m: usize) -> u64;
    fn speed_admits(d: *const u8, n: usize, feature: u32, asked: u32, h: *const u8, m: usize) -> u32;
}

fn tidy(s: &[u8], out: &mut [u8]) -> u64 { unsafe { speed_tidy(s.as_ptr(), s.len(), out.as_mut_ptr(), out.len()) } }
fn settle(s: &[u8], run: &mut [u8]) -> u64 { unsafe { speed_settle(s.as_ptr(), s.len(), run.as_mut_ptr(), run.len()) } }
fn admits(d: &[u8], feature: u32, asked: u32, h: &[u8]) -> u32 { unsafe { speed_admits(d.as_ptr(), d.len(), feature, asked, h.as_ptr(), h.len()) } }

const LIMIT: usize = 4096;
const ROOM: usize = 85 + LIMIT;

/// A header whose one list has so many expressions, short enough for the limit.
fn listed(r: &mut Rng, feature: usize, count: usize) -> String {
    let mut t = format!("{}=(", NAMES[feature]);
    for i in 0..count {
        if i > 0 { t += " "; }
        let host = format!("{}{}.test", (b'a' + r.below(26) as u8) as char, r.below(1000));
        t += &match r.below(10) { 0 => format!("\"https://*.{host}\""), 1 => format!("\"http://{host}\""), 2 => format!("\"https://{host}:444\""), _ => format!("\"https://{host}\"") };
    }
    t + ")"
}

/// Every feature declared, with expressions up to about so many bytes.
fn features(bytes: usize) -> String {
    let mut t = String::new();
    for (i, name) in NAMES.iter().enumerate() {
        if i > 0 { t += ", "; }
        t += &format!("{name}=(self)");
    }
    let mut i = 0;
    while t.len() + 30 < bytes {
        let at = t.find(&format!("{}=(self", NAMES[i % 17])).unwrap() + NAMES[i % 17].len() + 6;
        t.insert_str(at, &format!(" \"https://m{i}.example\""));
        i += 1;
    }
    t
}

fn one_list(bytes: usize) -> String {
    let mut t = String::from("camera=(self");
    let mut i = 0;
    while t.len() + 30 < bytes { t += &format!(" \"https://m{i}.example\""); i += 1; }
    t + ")"
}

struct Question { document: usize, feature: u32, asked: u32, host: Vec<u8> }

fn questions(r: &mut Rng, headers: &[(usize, String)], lists: &[[Option<Allowlist>; 17]]) -> Vec<Question> {
    (0..4096).map(|_| {
        let document = r.below(headers.len());
        let feature = headers[document].0;
        let (mut https, mut port) = (r.below(8) > 0, 443u32);
        let mut host = format!("{}{}.test", (b'a' + r.below(26) as u8) as char, r.below(1000)).into_bytes();
        if let Some(Allowlist::Listed { expressions, .. }) = &lists[document][feature] {
            if !expressions.is_empty() && r.below(2) == 0 {
                let e = &expressions[r.below(expressions.len())];
                https = e.scheme == Scheme::Https || r.below(2) == 0;
                match &e.host { Host::Exact(h) => host = h.clone().into_bytes(), Host::Subdomains(h) => host = format!("x.{h}").into_bytes(), _ => {} }
                port = match e.port { Port::Number(n) => n as u32, _ => if https { 443 } else { 80 } };
                if r.below(4) == 0 { host[0] ^= 1; }
            }
        }
        if !https && port == 443 { port = 80; }
        Question { document, feature: feature as u32, asked: (https as u32) << 1 | port << 16, host }
    }).collect()
}

fn compare_admits(name: &str, counts: &[usize]) {
    let mut r = Rng(7);
    let headers: Vec<(usize, String)> = (0..64).map(|i| { let f = r.below(17); (f, listed(&mut r, f, counts[i % counts.len()])) }).collect();
    let lists: Vec<_> = headers.iter().map(|(_, h)| declared(h.as_bytes()).unwrap()).collect();
    let bytes: Vec<Vec<u8>> = headers.iter().map(|(_, h)| { let mut d = vec![0u8; ROOM]; let n = settle(h.as_bytes(), &mut d); assert!(n < 1 << 32); d.truncate(n as usize); d }).collect();
    let qs = questions(&mut r, &headers, &lists);
    let plain = |q: &Question| -> u32 {
        let o = Origin { scheme: if q.asked & 2 != 0 { Scheme::Https } else { Scheme::Http }, host: &q.host, port: (q.asked >> 16) as u16 };
        match &lists[q.document][q.feature as usize] { None => 0, Some(l) => if l.admits(q.asked & 1 != 0, &o) { 1 } else { 2 } }
    };
    let proved = |q: &Question| admits(&bytes[q.document], q.feature, q.asked, &q.host);
    let mut yes = 0;
    for q in &qs { assert_eq!(plain(q), proved(q)); yes += (plain(q) == 1) as usize; }
    let (mut a, mut b) = (vec![], vec![]);
    for _ in 0..200 {
        let t = Instant::now(); for q in &qs { black_box(proved(black_box(q))); } a.push(t.elapsed().as_nanos() as f64 / qs.len() as f64);
        let t = Instant::now(); for q in &qs { black_box(plain(black_box(q))); } b.push(t.elapsed().as_nanos() as f64 / qs.len() as f64);
    }
    let (a, b) = (median(a), median(b));
    println!("admits, {name}: proved {a:.1} ns, plain {b:.1} ns, ratio {:.2} ({yes} of {} admitted)", a / b, qs.len());
}

fn compare_settling(name: &str, headers: &[String]) {
    let mut run = vec![0u8; ROOM];
    let (mut a, mut b) = (vec![], vec![]);
    for h in headers { assert_eq!(settle(h.as_bytes(), &mut run) < 1 << 32, declared(h.as_bytes()).is_some()); }
    for _ in 0..200 {
        let t = Instant::now(); for h in headers { black_box(settle(black_box(h.as_bytes()), &mut run)); } a.push(t.elapsed().as_nanos() as f64 / headers.len() as f64);
        let t = Instant::now(); for h in headers { black_box(declared(black_box(h.as_bytes()))); } b.push(t.elapsed().as_nanos() as f64 / headers.len() as f64);
    }
    let (a, b) = (median(a), median(b));
    println!("settling, {name}: proved {a:.0} ns, plain {b:.0} ns, ratio {:.2}", a / b);
}

fn main() {
    let args: Vec<String> = std::env::args().collect();
    let of = |kind: &str| if kind == "list" { one_list(1000) } else { features(1000) };
    match args.get(1).map(String::as_str) {
        Some("bytes") => { println!("{}", of(&args[2]).len()); return; }
        Some("tidy") => {
            // so many times the header, and the rest of a thousand times the empty one
            let (h, full) = (of(&args[2]), args[3].parse::<usize>().unwrap());
            let mut out = vec![0u8; LIMIT];
            for i in 0..1000 { let s: &[u8] = if i < full { h.as_bytes() } else { b"" }; assert!(black_box(tidy(black_box(s), &mut out)) < 1 << 32); }
            return;
        }
        _ => {}
    }
    for n in [0, 1, 4, 16, 40] { compare_admits(&format!("lists of {n}"), &[n]); }
    compare_admits("mix", &[0, 1, 4, 16, 40]);
    let mut r = Rng(11);
    let mixed: Vec<String> = (0..64).map(|i| { let f = r.below(17); listed(&mut r, f, [0, 1, 4, 16, 40][i % 5]) }).collect();
    compare_settling("one list of 0, 1, 4, 16 or 40", &mixed);
    compare_settling("every feature, 1,000 bytes", &[features(1000)]);
    compare_settling("one list, 1,000 bytes", &[one_list(1000)]);
}
