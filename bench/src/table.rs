//! Trials of the calls on a table through the proved library: questions, unloads, loads and the stack. See bench/run.
mod common;
mod engines;
mod plain;
mod proved;
mod questions;
mod stack;
mod texts;
use common::median;
use std::hint::black_box;
use std::io::{Read, Write};
use std::time::Instant;

/// A header of exactly so many bytes: one member after another with a list of expressions, the last host made longer to fill it up.
pub fn header(bytes: usize) -> Vec<u8> {
    const NAMES: [&str; 10] = ["camera", "fullscreen", "geolocation", "microphone", "payment", "usb", "forms", "popups", "scripts", "modals"];
    let member = |i: usize, pad: usize| format!("{}{}=(self \"https://a{i}{}.example\" \"https://*.b{i}.example:8443\")", if i > 0 { ", " } else { "" }, NAMES[i % 10], "x".repeat(pad));
    let (mut n, mut size) = (0, 0);
    while size + member(n, 0).len() <= bytes { size += member(n, 0).len(); n += 1; }
    let t: String = (0..n).map(|i| member(i, if i + 1 == n { bytes - size } else { 0 })).collect();
    assert_eq!(t.len(), bytes, "no header has {bytes} bytes");
    t.into_bytes()
}

/// A header of exactly so many bytes with one list, whose expressions all differ; the last host is made longer to fill it up.
fn list(bytes: usize) -> Vec<u8> {
    let item = |i: usize, pad: usize| format!("{}\"https://a{i}{}.example\"", if i > 0 { " " } else { "" }, "x".repeat(pad));
    let (mut n, mut size) = (0, "camera=()".len());
    while size + item(n, 0).len() <= bytes { size += item(n, 0).len(); n += 1; }
    let t = format!("camera=({})", (0..n).map(|i| item(i, if i + 1 == n { bytes - size } else { 0 })).collect::<String>());
    assert_eq!(t.len(), bytes, "no list has {bytes} bytes");
    t.into_bytes()
}

/// Headers that ask for more than most, each as long as fits into 4,096 bytes.
fn odd(kind: &str) -> Vec<u8> {
    const LETTERS: &[u8] = b"abcdefghijklmnopqrstuvwxyz0123456789";
    let letter = |i: usize| LETTERS[i % 36] as char;
    let many = |open: &str, close: &str, between: &str, item: &dyn Fn(usize) -> String| {
        let mut t = open.to_string();
        for i in 0.. {
            let next = format!("{}{}", if i > 0 { between } else { "" }, item(i));
            if t.len() + next.len() + close.len() > 4096 { break; }
            t += &next;
        }
        (t + close).into_bytes()
    };
    let listed = |item: &dyn Fn(usize) -> String| many("camera=(", ")", " ", item);
    match kind {
        "ports" => listed(&|i| format!("\"https://maker.example:{}\"", 8000 + i)),
        "twice" => listed(&|i| format!("\"https://a{}.example\"", i % 93)),
        "both" => listed(&|i| format!("\"{}://a{}.example\"", if i < 91 { "https" } else { "http" }, i % 91)),
        "beneath" => listed(&|i| format!("\"https://{}a{}.example\"", if i < 87 { "" } else { "*." }, i % 87)),
        "hash" => listed(&|i| format!("\"https://{}\"", (0..8).map(|k| if i >> k & 1 == 0 { "an" } else { "c0" }).collect::<String>())),
        "last" => listed(&|i| format!("\"https://a{}.example\"", i.min(92))),
        "short" => listed(&|i| if i < 36 { format!("\"http://{}\"", letter(i)) } else { format!("\"http://{}{}\"", letter(i), letter(i / 36)) }),
        "schemes" => listed(&|i| (if i % 2 == 0 { "\"http:\"" } else { "\"https:\"" }).to_string()),
        "stars" => many("", "", ",", &|_| "camera=*".to_string()),
        "empty" => many("", "", ",", &|_| "usb=()".to_string()),
        "keys" => many("", "", ",", &|_| "a".to_string()),
        _ => panic!("no such header"),
    }
}

/// 64 documents with such a header, all at the top or each in a frame of the one before.
fn loaded(bytes: usize, chain: bool) -> Vec<u8> {
    let h = header(bytes);
    let mut t = vec![0u8; proved::table_bytes()];
    proved::new_table(&mut t);
    for i in 0..64 {
        let none = proved::Frame { src: b"", marks: 0, allow: b"", sandbox: b"" };
        let a = if chain && i > 0 { proved::load_framed(&mut t, i, b"https://a.example", none, &h) } else { proved::load_top(&mut t, b"https://a.example", &h) };
        assert_eq!(a, proved::Answer { refusal: 0, value: i + 1, second: 0 });
    }
    t
}

/// The time of an unload, headers of 4,096 bytes against empty ones: from 64 documents one goes after the other until none is left.
fn unload() {
    println!("| documents | unload, headers of 4,096 bytes, ns | empty headers, ns | ratio |\n|---|---|---|---|");
    for (name, chain) in [("64 at the top, in a mixed order", false), ("64 each in a frame of the one before, from the innermost", true)] {
        let tables = [loaded(4096, chain), loaded(0, chain)];
        let mut run = tables[0].clone();
        let mut times = [vec![], vec![]];
        for round in 0..401 {
            for k in 0..2 {
                let k = (k + round) % 2;
                run.copy_from_slice(&tables[k]);
                let began = Instant::now();
                for i in 0..64u32 {
                    let s = if chain { 64 - i } else { 1 + i * 37 % 64 };
                    assert_eq!(black_box(proved::unload(black_box(&mut run), s)).value, 1);
                }
                times[k].push(began.elapsed().as_nanos() as f64 / 64.0);
            }
        }
        let [a, b] = times.map(median);
        println!("| {name} | {a:.0} | {b:.0} | {:.2} |", a / b);
    }
}

/// Loads and unloads a page so many times, with the header on standard input; for callgrind.
fn load(times: usize) {
    let mut h = vec![];
    std::io::stdin().read_to_end(&mut h).unwrap();
    let mut t = vec![0u8; proved::table_bytes()];
    proved::new_table(&mut t);
    for _ in 0..times {
        let a = black_box(proved::load_top(&mut t, b"https://a.example", black_box(&h)));
        assert!(a.refusal == 0 && a.second == 0);
        assert_eq!(proved::unload(&mut t, a.value).value, 1);
    }
}

/// Tidies the header on standard input so many times; for callgrind.
fn tidy(times: usize) {
    let mut h = vec![];
    std::io::stdin().read_to_end(&mut h).unwrap();
    let mut out = vec![0u8; 4096];
    for _ in 0..times { assert!(black_box(proved::tidy(black_box(&h), &mut out)) < 1 << 32); }
}

fn main() {
    let args: Vec<String> = std::env::args().collect();
    let number = |i: usize, or: usize| args.get(i).map_or(or, |s| s.parse().expect("a number"));
    match args.get(1).map(String::as_str) {
        Some("questions") => questions::main(number(2, 1) as u64, number(3, 31), args.get(4).map(String::as_str)),
        Some("unload") => unload(),
        Some("load") => load(number(2, 100)),
        Some("tidy") => tidy(number(2, 100)),
        Some("stack") => stack::main(),
        Some("header") => std::io::stdout().write_all(&header(number(2, 0))).unwrap(),
        Some("bytes") => println!("{}", proved::table_bytes()),
        Some("odd") => std::io::stdout().write_all(&odd(args.get(2).map_or("", String::as_str))).unwrap(),
        Some("list") => std::io::stdout().write_all(&list(number(2, 0))).unwrap(),
        _ => { eprintln!("usage: table questions [SEED [ROUNDS [KIND]]] | unload | load [TIMES] <HEADER | tidy [TIMES] <HEADER | header BYTES | list BYTES | odd KIND | bytes | stack"); std::process::exit(2); }
    }
}
