//! Questions over 64 documents: the proved library against three plain engines. All four make the same trees by their own loads from the same texts, every answer is compared, and the times are medians of
//! alternating rounds in one process.
use crate::common::*;
use crate::engines::*;
use crate::plain::*;
use crate::proved;
use crate::texts::*;
use std::hint::black_box;
use std::time::Instant;

/// A tree's name, how many of a hundred loads are at the top, how deep frames go, and whether hosts are long.
const TREES: [(&str, usize, usize, bool); 5] = [("forest", 30, 6, false), ("another", 30, 6, false), ("one page", 0, 3, false), ("pages", 100, 1, false), ("long hosts", 30, 6, true)];
const KINDS: [(&str, usize); 9] = [("empty text", 15), ("own origin", 20), ("listed", 20), ("near miss", 15), ("undeclared", 10), ("`null`", 5), ("bad text", 5), ("closed serial", 5), ("bad feature", 5)];

struct Tables { run: Vec<u8>, map: Engine<Mapped>, scan: Engine<Scanned>, half: Engine<Halved> }

fn plainly(a: proved::Answer) -> Result<u32, u32> { if a.refusal == 0 { Ok(a.value) } else { Err(a.refusal) } }
fn same(a: proved::Answer, b: Result<u32, u32>, c: Result<u32, u32>, d: Result<u32, u32>) -> Result<u32, u32> {
    let a = plainly(a);
    assert!(a == b && b == c && c == d, "the engines differ: {a:?} {b:?} {c:?} {d:?}");
    a
}

impl Tables {
    fn new() -> Tables {
        let mut run = vec![0xa5; proved::table_bytes()];
        assert_eq!(proved::new_table(&mut run).refusal, 0);
        Tables { run, map: Default::default(), scan: Default::default(), half: Default::default() }
    }
    fn top(&mut self, o: &[u8], h: &[u8]) -> Result<u32, u32> { same(proved::load_top(&mut self.run, o, h), self.map.load_top(o, h), self.scan.load_top(o, h), self.half.load_top(o, h)) }
    fn framed(&mut self, c: u32, o: &[u8], src: &[u8], allow: &[u8], h: &[u8]) -> Result<u32, u32> {
        let a = proved::load_framed(&mut self.run, c, o, proved::Frame { src, marks: 0, allow, sandbox: b"" }, h);
        same(a, self.map.load_framed(c, o, src, allow, h), self.scan.load_framed(c, o, src, allow, h), self.half.load_framed(c, o, src, allow, h))
    }
    fn unload(&mut self, s: u32) -> Result<u32, u32> { same(proved::unload(&mut self.run, s), self.map.unload(s), self.scan.unload(s), self.half.unload(s)) }
}

struct Page { serial: u32, depth: usize, origin: String }

/// 64 documents after some unloads, so that serials have gaps.
fn tree(t: &mut Texts, tops: usize, deep: usize) -> (Tables, Vec<Page>) {
    let mut tables = Tables::new();
    let mut pages: Vec<Page> = vec![];
    let mut loads = 0;
    loop {
        if pages.len() == MOST {
            if loads > 110 { break; }
            // one with few beneath it goes
            let s = pages[pages.len() - 1 - t.r.below(20)].serial;
            tables.unload(s).unwrap();
            pages.retain(|p| tables.map.documents.find(p.serial).is_some());
        }
        loads += 1;
        let header = t.header();
        let c = if pages.is_empty() || chance(&mut t.r, tops) { None } else { Some(t.r.below(pages.len())).filter(|&k| pages[k].depth < deep).or(if tops == 0 { Some(0) } else { None }) };
        let Some(c) = c else {
            let origin = t.origin();
            let serial = tables.top(origin.as_bytes(), header.as_bytes()).unwrap();
            pages.push(Page { serial, depth: 1, origin });
            continue;
        };
        // the container's own origin, one that its header lists, an opaque one, or any
        let lists = tables.map.documents.find(pages[c].serial).unwrap().declared.clone();
        let listed: Vec<&Expression> = lists.iter().flatten().flat_map(|l| match l { Allowlist::All => &[][..], Allowlist::Listed { expressions, .. } => expressions }).collect();
        let origin = match t.r.below(100) {
            0..=24 if pages[c].origin != "null" => pages[c].origin.clone(),
            25..=54 if !listed.is_empty() => { let k = t.r.below(listed.len()); t.admitted(listed[k]) }
            55..=60 => "null".into(),
            _ => t.origin(),
        };
        let src = if chance(&mut t.r, 85) { origin.clone() } else { t.origin() };
        let allow = t.allow();
        let serial = tables.framed(pages[c].serial, origin.as_bytes(), src.as_bytes(), allow.as_bytes(), header.as_bytes()).unwrap();
        let depth = pages[c].depth + 1;
        pages.push(Page { serial, depth, origin });
    }
    (tables, pages)
}

struct Question { serial: u32, feature: u32, from: u32, to: u32 }
#[derive(Default)]
struct Set { asks: Vec<Question>, texts: Vec<u8> }
impl Set {
    fn push(&mut self, serial: u32, feature: usize, t: &str) {
        let from = self.texts.len() as u32;
        self.texts.extend_from_slice(t.as_bytes());
        self.asks.push(Question { serial, feature: feature as u32, from, to: self.texts.len() as u32 });
    }
}

fn ask(kind: usize, t: &mut Texts, tables: &Tables, pages: &[Page], closed: &[u32], set: &mut Set) {
    let p = t.r.below(pages.len());
    let (s, f) = (pages[p].serial, t.r.below(17));
    let doc = tables.map.documents.find(s).unwrap();
    match kind {
        0 => set.push(s, f, ""),
        1 => { let o = if pages[p].origin == "null" { &pages[(p + 1) % pages.len()].origin } else { &pages[p].origin }; set.push(s, f, o) }
        2 | 3 => {
            // a feature with a list, if the document has one
            let have: Vec<(usize, &Vec<Expression>)> = (0..17).filter_map(|g| match &doc.declared[g] { Some(Allowlist::Listed { expressions, .. }) if !expressions.is_empty() => Some((g, expressions)), _ => None }).collect();
            let (f, o) = if have.is_empty() { (f, t.origin()) } else { let (f, l) = have[t.r.below(have.len())]; let k = t.r.below(l.len()); (f, t.admitted(&l[k])) };
            let o = if kind == 3 { t.near(&o) } else { o };
            set.push(s, f, &o)
        }
        4 => {
            let have: Vec<usize> = (0..17).filter(|&g| doc.declared[g].is_none()).collect();
            let f = if have.is_empty() { f } else { have[t.r.below(have.len())] };
            set.push(s, f, &t.origin())
        }
        5 => set.push(s, f, "null"),
        6 => set.push(s, f, &t.bad()),
        7 => { let k = t.r.below(closed.len()); set.push(closed[k], f, &t.origin()) }
        _ => set.push(s, 17 + f, &t.origin()),
    }
}

fn code(r: Result<bool, u32>) -> u32 { match r { Ok(true) => 1, Ok(false) => 2, Err(n) => n << 8 } }

/// Some questions of a set; their answers.
type Run<'a> = Box<dyn Fn(&[Question], &[u8], &mut Vec<u32>) + 'a>;
fn each<'a>(f: impl Fn(u32, u32, &[u8]) -> u32 + 'a) -> Run<'a> {
    Box::new(move |asks, texts, out| { out.clear(); for q in asks { out.push(f(q.serial, q.feature, &texts[q.from as usize..q.to as usize])); } })
}

/// So many questions are timed at once: short enough that little else of the machine falls into it.
const PIECE: usize = 1000;

/// Nanoseconds a question for each engine: for each piece of the set the median of alternating rounds.
fn time(runs: &[Run; 4], s: &Set, rounds: usize) -> [f64; 4] {
    let (mut sums, mut out) = ([0.0; 4], vec![]);
    let mut v = vec![vec![vec![]; 4]; s.asks.len() / PIECE];
    for round in 0..rounds {
        for (piece, asks) in s.asks.chunks_exact(PIECE).enumerate() {
            for n in 0..4 {
                let n = (n + round + piece) % 4;
                let began = Instant::now();
                runs[n](asks, &s.texts, &mut out);
                black_box(&out);
                v[piece][n].push(began.elapsed().as_nanos() as f64 / PIECE as f64);
            }
        }
    }
    let pieces = v.len() as f64;
    for piece in v { for (n, times) in piece.into_iter().enumerate() { sums[n] += median(times) / pieces; } }
    sums
}

/// With a kind in `only`, the library alone is asked these questions, so many rounds; for callgrind.
pub fn main(seed: u64, rounds: usize, only: Option<&str>) {
    const NAMES: [&str; 4] = ["library", "map", "scan", "halving"];
    let kinds: Vec<&str> = ["mix"].into_iter().chain(KINDS.iter().map(|k| k.0)).collect();
    let mut times: Vec<Vec<[f64; 4]>> = vec![vec![]; kinds.len()];
    for (at, &(name, tops, deep, long)) in TREES.iter().enumerate() {
        let mut t = Texts { r: Rng(0x9E3779B97F4A7C15 ^ (seed + at as u64).wrapping_mul(0xD1B54A32D192ED03) | 1), long };
        let (tables, pages) = tree(&mut t, tops, deep);
        let closed: Vec<u32> = (0..130).filter(|&s| tables.map.documents.find(s).is_none()).collect();
        let mut sets: Vec<Set> = kinds.iter().map(|_| Set::default()).collect();
        for _ in 0..100_000 {
            let (mut x, mut k) = (t.r.below(100), 0);
            while x >= KINDS[k].1 { x -= KINDS[k].1; k += 1; }
            ask(k, &mut t, &tables, &pages, &closed, &mut sets[0]);
        }
        for k in 0..KINDS.len() { for _ in 0..20_000 { ask(k, &mut t, &tables, &pages, &closed, &mut sets[k + 1]); } }
        let runs: [Run; 4] = [
            each(|s, f, o| { let a = proved::question(&tables.run, s, f, o); a.refusal << 8 | a.value }),
            each(|s, f, o| code(tables.map.question(s, f, o))),
            each(|s, f, o| code(tables.scan.question(s, f, o))),
            each(|s, f, o| code(tables.half.question(s, f, o))),
        ];
        let (mut want, mut out) = (vec![], vec![]);
        if let Some(kind) = only {
            let k = kinds.iter().position(|&n| n == kind).expect("no such kind");
            for _ in 0..rounds { runs[0](&sets[k].asks, &sets[k].texts, &mut out); black_box(&out); }
            println!("{kind}: {} questions", rounds * sets[k].asks.len());
            return;
        }
        let mut counts = [0usize; 3];
        for (k, s) in sets.iter().enumerate() {
            runs[0](&s.asks, &s.texts, &mut want);
            for &a in &want { if k == 0 { counts[match a { 1 => 0, 2 => 1, _ => 2 }] += 1; } }
            for (n, run) in runs.iter().enumerate().skip(1) { run(&s.asks, &s.texts, &mut out); assert!(want == out, "{name}, {}: the library and {} differ", kinds[k], NAMES[n]); }
        }
        let asked: usize = sets.iter().map(|s| s.asks.len()).sum();
        println!("{name}: 64 documents, depth {}, {asked} questions answered alike; of the mix {} Enabled, {} Disabled, {} refused", pages.iter().map(|p| p.depth).max().unwrap(), counts[0], counts[1], counts[2]);
        for (k, s) in sets.iter().enumerate() { times[k].push(time(&runs, s, rounds)); }
    }
    let ratio = |m: &[f64; 4]| m[0] / m[1].min(m[2]).min(m[3]);
    println!("\nNanoseconds a question (median of the trees), and the library's time / the fastest plain engine's, tree by tree.\n");
    println!("| questions | library | map | scan | halving | {} | worst |", TREES.iter().map(|t| t.0).collect::<Vec<_>>().join(" | "));
    println!("|{}", "---|".repeat(6 + TREES.len()));
    for (k, rows) in times.iter().enumerate() {
        let of = |n: usize| median(rows.iter().map(|m| m[n]).collect());
        let ratios: Vec<f64> = rows.iter().map(ratio).collect();
        println!("| {} | {:.1} | {:.1} | {:.1} | {:.1} | {} | {:.2} |", kinds[k], of(0), of(1), of(2), of(3), ratios.iter().map(|x| format!("{x:.2}")).collect::<Vec<_>>().join(" | "), ratios.iter().cloned().fold(0.0, f64::max));
    }
}
