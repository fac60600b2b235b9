//! Random headers, attributes and origins for documents, and questions to them.
use crate::common::Rng;
use crate::plain::*;

fn pick<T: Copy>(r: &mut Rng, s: &[T]) -> T { s[r.below(s.len())] }
pub fn chance(r: &mut Rng, percent: usize) -> bool { r.below(100) < percent }

const SUBS: [&str; 14] = ["www", "app", "cdn", "static", "media", "scan", "ward3", "ward12", "login", "viewer", "records", "pay", "api", "frames"];
const ORGS: [&str; 12] = ["st-mary-hospital", "maker7", "imaging-devices", "payments-eu", "northern-trust", "telehealth", "lab", "pharmacy-online", "acme-scanner", "cardio", "registry", "a"];
const TLDS: [&str; 5] = ["example", "example.com", "test.example", "co.example", "example.org"];
const PORTS: [u16; 6] = [8443, 8080, 444, 3000, 10443, 0];

/// Makes texts; with hosts of about 70 bytes if asked for.
pub struct Texts { pub r: Rng, pub long: bool }

impl Texts {
    fn host(&mut self) -> String {
        let r = &mut self.r;
        if self.long { return format!("bedside-monitor-display-unit-{:03}.intensive-care.st-mary-hospital.example", r.below(300)); }
        let mut s = String::new();
        if chance(r, 80) { s += pick(r, &SUBS); s += "."; }
        if chance(r, 15) { s += &format!("n{}.", r.below(40)); }
        s += pick(r, &ORGS);
        s += ".";
        s + pick(r, &TLDS)
    }

    pub fn origin(&mut self) -> String {
        let https = chance(&mut self.r, 85);
        let mut s = format!("{}://{}", if https { "https" } else { "http" }, self.host());
        if chance(&mut self.r, 15) { s += &format!(":{}", pick(&mut self.r, &PORTS)); }
        s
    }

    fn expression(&mut self) -> String {
        let https = chance(&mut self.r, 88);
        let scheme = if !https { "http" } else if chance(&mut self.r, 10) { "HTTPS" } else { "https" };
        let k = self.r.below(100);
        if k < 3 { return format!("{scheme}:"); }
        let mut h = if k < 5 { "*".to_string() } else if k < 20 { format!("*.{}", self.host()) } else { self.host() };
        if chance(&mut self.r, 8) { h = h.to_uppercase(); }
        let p = self.r.below(100);
        if p < 8 { h += &format!(":{}", pick(&mut self.r, &PORTS)); } else if p < 12 { h += ":*"; } else if p < 16 { h += if https { ":443" } else { ":80" }; }
        format!("{scheme}://{h}")
    }

    /// A header of 50 to 4,000 bytes.
    pub fn header(&mut self) -> String {
        let want = (50.0 * 80f64.powf(self.r.below(1000) as f64 / 1000.0)) as usize;
        let mut t = String::new();
        let mut order: Vec<usize> = (0..17).collect();
        for i in 0..17 { let j = i + self.r.below(17 - i); order.swap(i, j); }
        for f in order {
            if t.len() >= want { break; }
            if !t.is_empty() { t += ", "; }
            t += NAMES[f];
            t += "=";
            match self.r.below(100) {
                0..=7 => t += "*",
                8..=19 => t += "self",
                20..=23 => t += "()",
                _ => {
                    let n = 1 + if chance(&mut self.r, 60) { self.r.below(6) } else { self.r.below(40) };
                    let mut items: Vec<String> = if chance(&mut self.r, 60) { vec!["self".into()] } else { vec![] };
                    let mut size = t.len();
                    for _ in 0..n {
                        if size > 3700 { break; }
                        let e = format!("\"{}\"", self.expression());
                        size += e.len() + 1;
                        items.push(e);
                    }
                    t += &format!("({})", items.join(" "));
                }
            }
        }
        assert!(t.len() <= 4096);
        t
    }

    /// An allow attribute: most of the features that are self by default, each with no word, `*`, keywords or expressions.
    pub fn allow(&mut self) -> String {
        let mut t = vec![];
        for (f, name) in NAMES.iter().enumerate() {
            if !chance(&mut self.r, if crate::engines::DEFAULT_STAR[f] { 10 } else { 80 }) { continue; }
            t.push(match self.r.below(5) { 0 => name.to_string(), 1 => format!("{name} 'src'"), 2 => format!("{name} 'self' {}", self.expression()), _ => format!("{name} *") });
        }
        t.join("; ")
    }

    /// An origin text that an expression admits; half of an http expression's are https.
    pub fn admitted(&mut self, e: &Expression) -> String {
        let scheme = if e.scheme == Scheme::Https || chance(&mut self.r, 50) { Scheme::Https } else { Scheme::Http };
        let host = match &e.host { Host::None | Host::Any => self.host(), Host::Exact(h) => h.clone(), Host::Subdomains(h) => format!("{}.{h}", pick(&mut self.r, &SUBS)) };
        let port = match e.port { Port::Default => scheme.default_port(), Port::Any => if chance(&mut self.r, 50) { 8443 } else { scheme.default_port() }, Port::Number(n) => n };
        let s = format!("{}://{host}", if scheme == Scheme::Https { "https" } else { "http" });
        if port == scheme.default_port() { s } else { format!("{s}:{port}") }
    }

    /// An origin text that differs a little.
    pub fn near(&mut self, s: &str) -> String {
        let at = s.find("//").unwrap() + 2;
        let port = s[at..].contains(':');
        let mut t = s.to_string();
        match self.r.below(5) {
            0 if !port => { let last = if t.ends_with('x') { 'y' } else { 'x' }; t.pop(); t.push(last); }
            2 if !port => t += ":8444",
            0..=2 => t.replace_range(at..at + 1, "q"),
            3 => t.insert(at, 'x'),
            _ => if let Some(d) = t[at..].find('.') { t.replace_range(at..at + d + 1, ""); },
        }
        t
    }

    /// A text that is no origin text.
    pub fn bad(&mut self) -> String {
        let t = self.origin();
        let port = t.matches(':').count() == 2;
        match self.r.below(8) {
            0 => t.to_uppercase(),
            1 => t + "/",
            2 => t.replace('.', ".."),
            3 => t.replace("//", "/"),
            4 => "nul".into(),
            5 => if port { t + "x" } else if t.starts_with("https") { t + ":443" } else { t + ":80" },
            6 => if port { t + "99999" } else { t + ":08080" },
            _ => t.replace("http", "ftp"),
        }
    }
}
