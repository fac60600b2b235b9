//! Questions over loaded documents simply, in plain Rust: policies settled at load, frames without a sandbox, and three ways to keep the documents.
use crate::plain::*;
use std::collections::HashMap;

pub const DEFAULT_STAR: [bool; 17] = [false, false, true, true, false, false, false, true, true, false, true, true, true, true, true, true, false];
pub const MOST: usize = 64;
pub const LIMIT: usize = 4096;

/// A document's origin; an opaque one by its number.
#[derive(Clone, PartialEq)]
pub enum Own { Opaque(u32), Tuple { scheme: Scheme, host: Vec<u8>, port: u16 } }

/// What an origin text says.
#[derive(Clone, Copy)]
pub enum Said<'a> { Empty, Null, Tuple(Origin<'a>) }

fn port(digits: &[u8]) -> Option<u16> {
    if digits.is_empty() || !digits.iter().all(u8::is_ascii_digit) || (digits.len() > 1 && digits[0] == b'0') { return None; }
    std::str::from_utf8(digits).ok()?.parse().ok()
}

pub fn said(text: &[u8]) -> Option<Said<'_>> {
    if text.is_empty() { return Some(Said::Empty); }
    if text == b"null" { return Some(Said::Null); }
    let (scheme, rest) = if let Some(rest) = text.strip_prefix(b"https://") { (Scheme::Https, rest) } else { (Scheme::Http, text.strip_prefix(b"http://")?) };
    let (host, port) = match rest.iter().position(|&b| b == b':') {
        None => (rest, scheme.default_port()),
        Some(colon) => {
            let port = port(&rest[colon + 1..])?;
            if port == scheme.default_port() { return None; }
            (&rest[..colon], port)
        }
    };
    is_host(host).then_some(Said::Tuple(Origin { scheme, host, port }))
}

/// An allow attribute's list for a feature.
#[derive(Default)]
struct Allowed { all: bool, container: bool, declared: bool, expressions: Vec<Expression> }

fn attribute(allow: &[u8]) -> [Option<Allowed>; 17] {
    let mut lists: [Option<Allowed>; 17] = Default::default();
    for piece in allow.split(|&b| b == b';') {
        let mut words = piece.split(|b| matches!(b, b'\t' | b'\n' | 0x0c | b'\r' | b' ')).filter(|w| !w.is_empty());
        let Some(feature) = words.next().and_then(|w| NAMES.iter().position(|n| n.as_bytes() == w)) else { continue };
        let (mut list, mut none) = (Allowed::default(), true);
        for w in words {
            none = false;
            if w == b"*" { list.all = true; }
            else if w.eq_ignore_ascii_case(b"'self'") { list.container = true; }
            else if w.eq_ignore_ascii_case(b"'src'") { list.declared = true; }
            else if let Some(e) = expression(w) { list.expressions.push(e); }
        }
        list.declared |= none;
        lists[feature] = Some(list);
    }
    lists
}

pub struct Document { pub serial: u32, pub above: Vec<u32>, pub origin: Own, pub inherited: [bool; 17], pub declared: [Option<Allowlist>; 17] }

impl Document {
    fn is_own(&self, asked: Said) -> bool {
        match (asked, &self.origin) {
            (Said::Empty, _) => true,
            (Said::Tuple(o), Own::Tuple { scheme, host, port }) => o.scheme == *scheme && o.port == *port && o.host == host,
            _ => false,
        }
    }

    fn listed(&self, expressions: &[Expression], asked: Said) -> bool {
        // the empty text means the document's own origin
        let o = match (asked, &self.origin) {
            (Said::Tuple(o), _) => o,
            (Said::Empty, Own::Tuple { scheme, host, port }) => Origin { scheme: *scheme, host, port: *port },
            _ => return false,
        };
        expressions.iter().any(|e| e.admits(&o))
    }

    fn admits(&self, list: &Allowlist, asked: Said) -> bool {
        match list {
            Allowlist::All => true,
            Allowlist::Listed { own, expressions } => (*own && self.is_own(asked)) || self.listed(expressions, asked),
        }
    }

    fn value(&self, feature: usize, asked: Said) -> bool { self.inherited[feature] && self.declared[feature].as_ref().is_none_or(|l| self.admits(l, asked)) }

    fn decide(&self, feature: usize, asked: Said) -> bool {
        if !self.inherited[feature] { return false; }
        match &self.declared[feature] {
            Some(list) => self.admits(list, asked),
            None => DEFAULT_STAR[feature] || self.is_own(asked),
        }
    }

    /// Whether an origin that arrives in a frame of this document is the frame's declared one.
    fn is_declared(&self, src: Said, arriving: Said) -> bool {
        match (src, arriving) {
            (Said::Empty, a) => self.is_own(a),
            (Said::Null, _) => false,
            (Said::Tuple(_), Said::Empty) => self.is_own(src),
            (Said::Tuple(s), Said::Tuple(a)) => s.scheme == a.scheme && s.port == a.port && s.host == a.host,
            (Said::Tuple(_), Said::Null) => false,
        }
    }

    /// What a frame of this document inherits.
    fn inherits(&self, src: Said, allow: &[u8], arriving: Said) -> [bool; 17] {
        let lists = attribute(allow);
        std::array::from_fn(|f| {
            self.value(f, Said::Empty) && self.value(f, arriving) && match &lists[f] {
                Some(l) => l.all || (l.container && self.is_own(arriving)) || (l.declared && self.is_declared(src, arriving)) || self.listed(&l.expressions, arriving),
                None => DEFAULT_STAR[f] || self.is_own(arriving),
            }
        })
    }
}

pub trait Documents: Default {
    fn find(&self, serial: u32) -> Option<&Document>;
    fn add(&mut self, d: Document);
    /// Keeps those that `f` holds of.
    fn keep(&mut self, f: impl Fn(&Document) -> bool);
    fn count(&self) -> usize;
}

#[derive(Default)]
pub struct Mapped(HashMap<u32, Document>);
#[derive(Default)]
pub struct Scanned(Vec<Document>);
#[derive(Default)]
pub struct Halved(Vec<Document>);

impl Documents for Mapped {
    fn find(&self, serial: u32) -> Option<&Document> { self.0.get(&serial) }
    fn add(&mut self, d: Document) { self.0.insert(d.serial, d); }
    fn keep(&mut self, f: impl Fn(&Document) -> bool) { self.0.retain(|_, d| f(d)); }
    fn count(&self) -> usize { self.0.len() }
}
impl Documents for Scanned {
    fn find(&self, serial: u32) -> Option<&Document> { self.0.iter().find(|d| d.serial == serial) }
    fn add(&mut self, d: Document) { self.0.push(d); }
    fn keep(&mut self, f: impl Fn(&Document) -> bool) { self.0.retain(f); }
    fn count(&self) -> usize { self.0.len() }
}
impl Documents for Halved {
    fn find(&self, serial: u32) -> Option<&Document> { self.0.binary_search_by_key(&serial, |d| d.serial).ok().map(|at| &self.0[at]) }
    fn add(&mut self, d: Document) { self.0.push(d); }
    fn keep(&mut self, f: impl Fn(&Document) -> bool) { self.0.retain(f); }
    fn count(&self) -> usize { self.0.len() }
}

/// A table; each call answers what it gives, or a refusal's number.
#[derive(Default)]
pub struct Engine<D> { pub documents: D, last: u32 }

impl<D: Documents> Engine<D> {
    fn load(&mut self, above: Vec<u32>, origin: impl Fn(u32) -> Own, inherited: [bool; 17], header: &[u8]) -> Result<u32, u32> {
        if self.documents.count() >= MOST { return Err(6); }
        self.last += 1;
        self.documents.add(Document { serial: self.last, above, origin: origin(self.last), inherited, declared: declared(header).unwrap_or_default() });
        Ok(self.last)
    }

    pub fn load_top(&mut self, origin: &[u8], header: &[u8]) -> Result<u32, u32> {
        if header.len() > LIMIT { return Err(4); }
        let own = match said(origin) { None | Some(Said::Empty) => return Err(3), Some(Said::Null) => None, Some(Said::Tuple(o)) => Some(tuple(o)) };
        self.load(vec![], |n| own.clone().unwrap_or(Own::Opaque(n)), [true; 17], header)
    }

    pub fn load_framed(&mut self, container: u32, origin: &[u8], src: &[u8], allow: &[u8], header: &[u8]) -> Result<u32, u32> {
        if header.len() > LIMIT || allow.len() > LIMIT { return Err(4); }
        let (arriving, src) = (said(origin).ok_or(3u32)?, said(src).ok_or(3u32)?);
        let c = self.documents.find(container).ok_or(1u32)?;
        let inherited = c.inherits(src, allow, arriving);
        let mut above = vec![container];
        above.extend(&c.above);
        let own = match arriving { Said::Empty => Some(c.origin.clone()), Said::Null => None, Said::Tuple(o) => Some(tuple(o)) };
        self.load(above, |n| own.clone().unwrap_or(Own::Opaque(n)), inherited, header)
    }

    pub fn unload(&mut self, serial: u32) -> Result<u32, u32> {
        self.documents.find(serial).ok_or(1u32)?;
        let before = self.documents.count();
        self.documents.keep(|d| d.serial != serial && !d.above.contains(&serial));
        Ok((before - self.documents.count()) as u32)
    }

    #[inline(never)]
    pub fn question(&self, serial: u32, feature: u32, origin: &[u8]) -> Result<bool, u32> {
        let asked = said(origin).ok_or(3u32)?;
        if feature > 16 { return Err(2); }
        let document = self.documents.find(serial).ok_or(1u32)?;
        Ok(document.decide(feature as usize, asked))
    }
}

fn tuple(o: Origin) -> Own { Own::Tuple { scheme: o.scheme, host: o.host.to_vec(), port: o.port } }
