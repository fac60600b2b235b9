//! What the proved library does, in plain Rust: a header parsed into lists, and whether a list admits an origin.
#![allow(dead_code)]

pub const NAMES: [&str; 17] = [
    "camera", "display-capture", "downloads-without-user-activation", "forms", "fullscreen", "geolocation", "microphone", "modals",
    "orientation-lock", "payment", "plugins", "pointer-lock", "popups", "presentation", "scripts", "top-navigation", "usb",
];

#[derive(Clone, Copy, PartialEq, Debug)]
pub enum Scheme { Http, Https }

impl Scheme {
    pub fn default_port(self) -> u16 { match self { Scheme::Http => 80, Scheme::Https => 443 } }
}

#[derive(Clone, PartialEq, Debug)]
pub enum Host { None, Any, Exact(String), Subdomains(String) }

#[derive(Clone, Copy, PartialEq, Debug)]
pub enum Port { Default, Any, Number(u16) }

#[derive(Clone, PartialEq, Debug)]
pub struct Expression { pub scheme: Scheme, pub host: Host, pub port: Port }

#[derive(Clone, PartialEq, Debug)]
pub enum Allowlist { All, Listed { own: bool, expressions: Vec<Expression> } }

#[derive(Clone, Copy)]
pub struct Origin<'a> { pub scheme: Scheme, pub host: &'a [u8], pub port: u16 }

pub fn is_host(h: &[u8]) -> bool {
    !h.is_empty() && h.len() <= 253 && h.split(|b| *b == b'.').all(|l| !l.is_empty() && l.iter().all(|b| b.is_ascii_lowercase() || b.is_ascii_digit() || *b == b'-'))
}

pub fn expression(s: &[u8]) -> Option<Expression> {
    let t = s.to_ascii_lowercase();
    let (scheme, rest) = if let Some(r) = t.strip_prefix(b"http:") { (Scheme::Http, r) } else if let Some(r) = t.strip_prefix(b"https:") { (Scheme::Https, r) } else { return None };
    if rest.is_empty() { return Some(Expression { scheme, host: Host::None, port: Port::Default }); }
    let rest = rest.strip_prefix(b"//")?;
    let cut = rest.iter().position(|b| *b == b':').unwrap_or(rest.len());
    let (h, p) = rest.split_at(cut);
    let port = if p.is_empty() { Port::Default } else {
        let d = &p[1..];
        if d == b"*" { Port::Any } else {
            if d.is_empty() || d.len() > 5 || !d.iter().all(|b| b.is_ascii_digit()) { return None; }
            let n = d.iter().fold(0u32, |n, b| n * 10 + (b - b'0') as u32);
            if n > 65535 { return None; }
            Port::Number(n as u16)
        }
    };
    let text = |h: &[u8]| String::from_utf8(h.to_vec()).unwrap();
    let host = if h == b"*" { Host::Any } else if let Some(h) = h.strip_prefix(b"*.") { if !is_host(h) { return None; } Host::Subdomains(text(h)) } else { if !is_host(h) { return None; } Host::Exact(text(h)) };
    Some(Expression { scheme, host, port })
}

impl Expression {
    pub fn admits(&self, o: &Origin) -> bool {
        if self.scheme == Scheme::Https && o.scheme == Scheme::Http { return false; }
        let port = || match self.port { Port::Default => o.port == o.scheme.default_port(), Port::Any => true, Port::Number(n) => n == o.port };
        match &self.host {
            Host::None => true,
            Host::Any => port(),
            Host::Exact(h) => h.as_bytes() == o.host && port(),
            Host::Subdomains(h) => o.host.len() > h.len() + 1 && o.host[o.host.len() - h.len() - 1] == b'.' && o.host.ends_with(h.as_bytes()) && port(),
        }
    }
}

impl Allowlist {
    pub fn admits(&self, same: bool, o: &Origin) -> bool {
        match self { Allowlist::All => true, Allowlist::Listed { own, expressions } => (*own && same) || expressions.iter().any(|e| e.admits(o)) }
    }
}

#[derive(Clone, Copy)]
enum Item<'a> { Token(&'a [u8]), Text(&'a [u8]), Other }

struct Reader<'a> { s: &'a [u8], at: usize }

impl<'a> Reader<'a> {
    fn peek(&self) -> u8 { self.s.get(self.at).copied().unwrap_or(0) }
    fn done(&self) -> bool { self.at >= self.s.len() }
    fn run(&mut self, f: impl Fn(u8) -> bool) -> &'a [u8] {
        let from = self.at;
        while !self.done() && f(self.s[self.at]) { self.at += 1; }
        &self.s[from..self.at]
    }
    fn key(&mut self) -> Option<&'a [u8]> {
        let b = self.peek();
        if !(b.is_ascii_lowercase() || b == b'*') { return None; }
        Some(self.run(|b| b.is_ascii_lowercase() || b.is_ascii_digit() || matches!(b, b'_' | b'-' | b'.' | b'*')))
    }
    fn bare(&mut self) -> Option<Item<'a>> {
        match self.peek() {
            b'"' => {
                self.at += 1;
                let from = self.at;
                loop {
                    match self.peek() {
                        b'\\' => { self.at += 1; if !matches!(self.peek(), b'"' | b'\\') { return None; } self.at += 1; }
                        b'"' => { self.at += 1; return Some(Item::Text(&self.s[from..self.at - 1])); }
                        0x20..=0x7e => self.at += 1,
                        _ => return None,
                    }
                }
            }
            b if b.is_ascii_alphabetic() || b == b'*' => Some(Item::Token(self.run(|b| b.is_ascii_alphanumeric() || b"!#$%&'*+-.^_`|~:/".contains(&b)))),
            b if b.is_ascii_digit() || b == b'-' => {
                if b == b'-' { self.at += 1; }
                let n = self.run(|b| b.is_ascii_digit()).len();
                if n == 0 { return None; }
                if self.peek() == b'.' {
                    if n > 12 { return None; }
                    self.at += 1;
                    let f = self.run(|b| b.is_ascii_digit()).len();
                    if f == 0 || f > 3 { return None; }
                } else if n > 15 { return None; }
                Some(Item::Other)
            }
            b':' => { self.at += 1; self.run(|b| b.is_ascii_alphanumeric() || matches!(b, b'+' | b'/' | b'=')); if self.peek() != b':' { return None; } self.at += 1; Some(Item::Other) }
            b'?' => { self.at += 1; if !matches!(self.peek(), b'0' | b'1') { return None; } self.at += 1; Some(Item::Other) }
            _ => None,
        }
    }
    fn params(&mut self) -> Option<()> {
        while self.peek() == b';' {
            self.at += 1;
            self.run(|b| b == b' ');
            self.key()?;
            if self.peek() == b'=' { self.at += 1; self.bare()?; }
        }
        Some(())
    }
}

enum Meaning { Star, Own, Source(Expression), Nothing }

fn meaning(x: Item) -> Meaning {
    match x {
        Item::Token(b"*") => Meaning::Star,
        Item::Token(b"self") => Meaning::Own,
        Item::Text(t) => expression(t).map_or(Meaning::Nothing, Meaning::Source),
        _ => Meaning::Nothing,
    }
}

/// The lists that a header declares; none where it is malformed.
pub fn declared(s: &[u8]) -> Option<[Option<Allowlist>; 17]> {
    let mut lists: [Option<Allowlist>; 17] = Default::default();
    let mut r = Reader { s, at: 0 };
    r.run(|b| b == b' ');
    while !r.done() {
        let key = r.key()?;
        let feature = NAMES.iter().position(|n| n.as_bytes() == key);
        let mut list = None;
        if r.peek() == b'=' {
            r.at += 1;
            if r.peek() == b'(' {
                r.at += 1;
                let (mut star, mut own, mut expressions) = (false, false, vec![]);
                loop {
                    r.run(|b| b == b' ');
                    if r.peek() == b')' { r.at += 1; break; }
                    let x = r.bare()?;
                    r.params()?;
                    if !matches!(r.peek(), b' ' | b')') { return None; }
                    if feature.is_some() { match meaning(x) { Meaning::Star => star = true, Meaning::Own => own = true, Meaning::Source(e) => expressions.push(e), Meaning::Nothing => {} } }
                }
                list = Some(if star { Allowlist::All } else { Allowlist::Listed { own, expressions } });
            } else {
                let x = r.bare()?;
                if feature.is_some() {
                    list = match meaning(x) { Meaning::Star => Some(Allowlist::All), Meaning::Own => Some(Allowlist::Listed { own: true, expressions: vec![] }), Meaning::Source(e) => Some(Allowlist::Listed { own: false, expressions: vec![e] }), Meaning::Nothing => None };
                }
            }
        }
        r.params()?;
        if let Some(n) = feature { lists[n] = list; }
        r.run(|b| b == b' ' || b == b'\t');
        if r.done() { break; }
        if r.peek() != b',' { return None; }
        r.at += 1;
        r.run(|b| b == b' ' || b == b'\t');
        if r.done() { return None; }
    }
    Some(lists)
}
