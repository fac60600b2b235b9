//! Source expressions.

use crate::limits::MAX_PORT_DIGITS;
use crate::origins::{decimal_port, is_host, Origin, Scheme, TupleOrigin};

#[derive(Clone, Debug, PartialEq, Eq)]
pub enum HostPart {
    /// `*`: any host.
    Any,
    Exact(Vec<u8>),
    /// `*.` and a host: every host that ends in the dot and this host.
    Beneath(Vec<u8>),
}

#[derive(Clone, Copy, Debug, PartialEq, Eq)]
pub enum PortPart {
    /// No port, or `:443` after https, which says the same.
    Default,
    /// `:*`
    Any,
    /// Any other port that is written.
    One(u16),
}

/// Held in lower case and with its port settled, so that two expressions are
/// equal exactly if they are tidied alike.
#[derive(Clone, Debug, PartialEq, Eq)]
pub enum SourceExpression {
    /// "`http:` or `https:` alone (any origin of that scheme)"; R-3: `http:` any
    /// https origin too.
    SchemeOnly(Scheme),
    Full {
        scheme: Scheme,
        host: HostPart,
        port: PortPart,
    },
}

impl SourceExpression {
    /// "scheme, `://`, host part, and perhaps `:` and one to five digits worth
    /// at most 65,535, or `:*`"; "scheme and host letters in expressions
    /// ignore case".
    pub fn parse(text: &[u8]) -> Option<Self> {
        let text = text.to_ascii_lowercase();
        let colon = text.iter().position(|&b| b == b':')?;
        let scheme = *Scheme::BOTH
            .iter()
            .find(|s| s.name().as_bytes() == &text[..colon])?;
        let rest = &text[colon + 1..];
        if rest.is_empty() {
            return Some(SourceExpression::SchemeOnly(scheme));
        }
        let rest = rest.strip_prefix(b"//")?;
        let (host, port) = match rest.iter().position(|&b| b == b':') {
            None => (rest, PortPart::Default),
            Some(colon) => (&rest[..colon], parse_port_part(&rest[colon + 1..], scheme)?),
        };
        Some(SourceExpression::Full {
            scheme,
            host: parse_host_part(host)?,
            port,
        })
    }

    /// "No expression admits an opaque origin."
    pub fn admits(&self, origin: &Origin) -> bool {
        let Origin::Tuple(origin) = origin else {
            return false;
        };
        match self {
            SourceExpression::SchemeOnly(scheme) => scheme_admits(*scheme, origin.scheme),
            SourceExpression::Full { scheme, host, port } => {
                scheme_admits(*scheme, origin.scheme)
                    && host_admits(host, &origin.host)
                    && port_admits(*port, origin)
            }
        }
    }

    /// "lower case, no leading zeros, default port dropped"; R-3: "the tidied
    /// form keeps a written `:80` after http".
    pub fn write_tidied(&self, out: &mut Vec<u8>) {
        match self {
            SourceExpression::SchemeOnly(scheme) => {
                out.extend_from_slice(scheme.name().as_bytes());
                out.push(b':');
            }
            SourceExpression::Full { scheme, host, port } => {
                out.extend_from_slice(scheme.name().as_bytes());
                out.extend_from_slice(b"://");
                match host {
                    HostPart::Any => out.push(b'*'),
                    HostPart::Exact(host) => out.extend_from_slice(host),
                    HostPart::Beneath(host) => {
                        out.extend_from_slice(b"*.");
                        out.extend_from_slice(host);
                    }
                }
                match port {
                    PortPart::Default => {}
                    PortPart::Any => out.extend_from_slice(b":*"),
                    PortPart::One(port) => out.extend_from_slice(format!(":{port}").as_bytes()),
                }
            }
        }
    }
}

/// "The host part is a host, `*` (any host), or `*.` and a host".
fn parse_host_part(text: &[u8]) -> Option<HostPart> {
    if text == b"*" {
        return Some(HostPart::Any);
    }
    if let Some(host) = text.strip_prefix(b"*.") {
        return is_host(host).then(|| HostPart::Beneath(host.to_vec()));
    }
    is_host(text).then(|| HostPart::Exact(text.to_vec()))
}

fn parse_port_part(text: &[u8], scheme: Scheme) -> Option<PortPart> {
    if text == b"*" {
        return Some(PortPart::Any);
    }
    if text.len() > MAX_PORT_DIGITS {
        return None;
    }
    let port = decimal_port(text)?;
    // Only https origins are admitted after https, so that its default port
    // says no more than no port. After http "two expressions that were one
    // thing now differ" (R-3).
    if scheme == Scheme::Https && port == scheme.default_port() {
        return Some(PortPart::Default);
    }
    Some(PortPart::One(port))
}

/// "The scheme must be equal", but R-3: "`http:` and `http://...` admit https
/// origins too".
fn scheme_admits(scheme: Scheme, origin: Scheme) -> bool {
    scheme == origin || (scheme == Scheme::Http && origin == Scheme::Https)
}

/// `*.` and a host "admits hosts ending in the dot and the host with at least
/// one byte before, and so not the bare host. It is matched byte for byte".
pub fn host_admits(part: &HostPart, host: &[u8]) -> bool {
    match part {
        HostPart::Any => true,
        HostPart::Exact(exact) => exact == host,
        HostPart::Beneath(parent) => match host.strip_suffix(parent.as_slice()) {
            Some(before) => before.len() > 1 && before.ends_with(b"."),
            None => false,
        },
    }
}

/// R-3: "a missing port means the default port of the origin's own scheme. A
/// written port is compared as before".
fn port_admits(part: PortPart, origin: &TupleOrigin) -> bool {
    match part {
        PortPart::Default => origin.port == origin.scheme.default_port(),
        PortPart::Any => true,
        PortPart::One(port) => port == origin.port,
    }
}

#[cfg(test)]
mod tests {
    use super::*;
    use crate::origins::OriginText;

    fn admits(expression: &str, origin: &str) -> bool {
        let expression = SourceExpression::parse(expression.as_bytes()).expect("an expression");
        match OriginText::parse(origin.as_bytes()).expect("an origin") {
            OriginText::Tuple(t) => expression.admits(&Origin::Tuple(t)),
            _ => expression.admits(&Origin::FreshOpaque),
        }
    }

    fn tidied(expression: &str) -> String {
        let mut out = Vec::new();
        SourceExpression::parse(expression.as_bytes())
            .expect("an expression")
            .write_tidied(&mut out);
        String::from_utf8(out).expect("ascii")
    }

    #[test]
    fn edge_cases_of_document_01() {
        assert!(admits("https://*.example.com", "https://geo.example.com"));
        assert!(!admits("https://*.example.com", "https://example.com"));
        assert!(admits("https://example.com:*", "https://example.com:444"));
        assert!(!admits("https://example.com", "https://example.com:444"));
        assert!(admits("HTTPS://Example.COM:0443", "https://example.com"));
        assert_eq!(SourceExpression::parse(b"https://a.example:65536"), None);
        // "The marked http case turns to yes."
        assert!(admits("http://example.com", "https://example.com"));
        assert!(!admits("http://example.com:80", "https://example.com"));
    }

    #[test]
    fn every_form() {
        assert!(admits("https:", "https://a:1"));
        assert!(admits("HtTp:", "http://a"));
        assert!(admits("http:", "https://a"));
        assert!(!admits("https:", "http://a"));
        assert!(admits("https://*", "https://a.b"));
        assert!(!admits("https://*", "https://a.b:444"));
        assert!(admits("https://*:*", "https://a.b:444"));
        assert!(admits("https://*.b:*", "https://a.b"));
        assert!(admits("https://*.b", "https://x.a.b"));
        assert!(!admits("https://*.b", "https://ab"));
        assert!(admits("http://a:00000", "http://a:0"));
        for opaque in ["null", ""] {
            for scheme in ["http", "https"] {
                assert!(!admits(&format!("{scheme}:"), opaque));
                assert!(!admits(&format!("{scheme}://*:*"), opaque));
            }
        }
    }

    // -------------------------------------------------------------

    /// For each expression, which of these it admits: http at 80, 443 and 8080,
    /// https at 443, 80 and 8080.
    const ROWS: [(&str, &str); 32] = [
        ("http:", "yes yes yes  yes yes yes"),
        ("http://g.example.com", "yes no  no   yes no  no"),
        ("http://g.example.com:80", "yes no  no   no  yes no"),
        ("http://g.example.com:443", "no  yes no   yes no  no"),
        ("http://g.example.com:8080", "no  no  yes  no  no  yes"),
        ("http://g.example.com:*", "yes yes yes  yes yes yes"),
        ("http://*.example.com", "yes no  no   yes no  no"),
        ("http://*.example.com:80", "yes no  no   no  yes no"),
        ("http://*.example.com:443", "no  yes no   yes no  no"),
        ("http://*.example.com:8080", "no  no  yes  no  no  yes"),
        ("http://*.example.com:*", "yes yes yes  yes yes yes"),
        ("http://*", "yes no  no   yes no  no"),
        ("http://*:80", "yes no  no   no  yes no"),
        ("http://*:443", "no  yes no   yes no  no"),
        ("http://*:8080", "no  no  yes  no  no  yes"),
        ("http://*:*", "yes yes yes  yes yes yes"),
        ("https:", "no  no  no   yes yes yes"),
        ("https://g.example.com", "no  no  no   yes no  no"),
        ("https://g.example.com:80", "no  no  no   no  yes no"),
        ("https://g.example.com:443", "no  no  no   yes no  no"),
        ("https://g.example.com:8080", "no  no  no   no  no  yes"),
        ("https://g.example.com:*", "no  no  no   yes yes yes"),
        ("https://*.example.com", "no  no  no   yes no  no"),
        ("https://*.example.com:80", "no  no  no   no  yes no"),
        ("https://*.example.com:443", "no  no  no   yes no  no"),
        ("https://*.example.com:8080", "no  no  no   no  no  yes"),
        ("https://*.example.com:*", "no  no  no   yes yes yes"),
        ("https://*", "no  no  no   yes no  no"),
        ("https://*:80", "no  no  no   no  yes no"),
        ("https://*:443", "no  no  no   yes no  no"),
        ("https://*:8080", "no  no  no   no  no  yes"),
        ("https://*:*", "no  no  no   yes yes yes"),
    ];

    /// The six origins of the rows, at this host.
    fn six(host: &str) -> [String; 6] {
        [
            format!("http://{host}"),
            format!("http://{host}:443"),
            format!("http://{host}:8080"),
            format!("https://{host}"),
            format!("https://{host}:80"),
            format!("https://{host}:8080"),
        ]
    }

    #[test]
    fn schemes_and_ports() {
        for (expression, row) in ROWS {
            let row: Vec<&str> = row.split_whitespace().collect();
            assert_eq!(row.len(), 6, "{expression}");
            for (origin, wanted) in six("g.example.com").iter().zip(row) {
                let wanted = wanted == "yes";
                assert_eq!(admits(expression, origin), wanted, "{expression} {origin}");
                // Case and leading zeros change nothing.
                let upper = expression.to_uppercase();
                assert_eq!(admits(&upper, origin), wanted, "{upper} {origin}");
                let zeros = expression.replace(":80", ":080").replace(":443", ":00443");
                assert_eq!(admits(&zeros, origin), wanted, "{zeros} {origin}");
            }
        }
    }

    #[test]
    fn another_host_is_not_admitted() {
        for (expression, _) in ROWS.iter().filter(|(e, _)| e.contains("example")) {
            for host in ["h.example.org", "example.com", "gexample.com", "com"] {
                for origin in six(host) {
                    assert!(!admits(expression, &origin), "{expression} {origin}");
                }
            }
            // Beneath the exact host only `*.` admits.
            if expression.contains("//g.") {
                for origin in six("x.g.example.com") {
                    assert!(!admits(expression, &origin), "{expression} {origin}");
                }
            }
        }
    }

    #[test]
    fn ports_that_are_no_default() {
        assert!(admits("http://a:0", "https://a:0"));
        assert!(!admits("http://a:0", "https://a"));
        assert!(!admits("http://a", "https://a:0"));
        assert!(admits("http://a:65535", "https://a:65535"));
        assert!(!admits("http://a:8080", "https://a:8081"));
        assert!(!admits("http://a:8080", "http://a:8081"));
    }

    #[test]
    fn doubles() {
        let parse = |text: &str| SourceExpression::parse(text.as_bytes()).expect("an expression");
        // Two that differ.
        for (one, other) in [
            ("http://a", "http://a:80"),
            ("http://*", "http://*:80"),
            ("http://*.a", "http://*.a:80"),
            ("http://a", "http://a:443"),
            ("http://a:80", "http://a:443"),
            ("https://a", "https://a:80"),
            ("http://a", "https://a"),
            ("http://a:443", "https://a:443"),
            ("http://a:80", "https://a:80"),
            ("http:", "https:"),
            ("http:", "http://*"),
            ("http:", "http://*:*"),
            ("https:", "https://*:*"),
        ] {
            assert_ne!(parse(one), parse(other), "{one} {other}");
            assert_ne!(tidied(one), tidied(other), "{one} {other}");
        }
        // Two that are one.
        for (one, other) in [
            ("http://a", "HTTP://A"),
            ("http://a:80", "http://a:080"),
            ("http://*:80", "HTTP://*:00080"),
            ("http://*.a:80", "http://*.A:0080"),
            ("http://a:443", "http://a:0443"),
            ("https://a", "https://a:443"),
            ("https://a", "https://a:00443"),
            ("https://*", "https://*:443"),
            ("https://*.a", "https://*.a:0443"),
            ("https://a:80", "https://a:00080"),
            ("http://a:*", "Http://a:*"),
            ("http:", "HTTP:"),
        ] {
            assert_eq!(parse(one), parse(other), "{one} {other}");
            assert_eq!(tidied(one), tidied(other), "{one} {other}");
        }
    }

    #[test]
    fn no_expressions() {
        for text in [
            "",
            "*",
            "self",
            "https",
            "https:/",
            "https://",
            "https://*.",
            "https://*.*",
            "https://**",
            "https://*a",
            "https://a.*",
            "https://a.",
            "https://.a",
            "https://a..b",
            "https://a_b",
            "https://a:",
            "https://a:000080",
            "https://a:**",
            "https://a:8a",
            "https://a:1:1",
            "https://a/",
            "https://a/path",
            "https://a?",
            "//a",
            "a.example",
            "ftp://a",
            "wss:",
            " https:",
            "https: ",
        ] {
            assert_eq!(SourceExpression::parse(text.as_bytes()), None, "{text}");
        }
    }

    #[test]
    fn long_hosts() {
        let host = "a".repeat(253);
        for before in ["https://", "https://*."] {
            assert!(SourceExpression::parse(format!("{before}{host}").as_bytes()).is_some());
            assert!(SourceExpression::parse(format!("{before}{host}a").as_bytes()).is_none());
        }
    }

    #[test]
    fn tidied_forms() {
        assert_eq!(tidied("HTTPS://B.example:443"), "https://b.example");
        assert_eq!(tidied("http://b:00443"), "http://b:443");
        assert_eq!(tidied("http://b:443"), "http://b:443");
        assert_eq!(tidied("Http://B"), "http://b");
        assert_eq!(tidied("HTTP://B:80"), "http://b:80");
        assert_eq!(tidied("http://b:080"), "http://b:80");
        assert_eq!(tidied("http://*"), "http://*");
        assert_eq!(tidied("http://*:00080"), "http://*:80");
        assert_eq!(tidied("http://*.B"), "http://*.b");
        assert_eq!(tidied("http://*.B:0080"), "http://*.b:80");
        assert_eq!(tidied("https://b"), "https://b");
        assert_eq!(tidied("https://b:00443"), "https://b");
        assert_eq!(tidied("https://*:443"), "https://*");
        assert_eq!(tidied("https://*.b:0443"), "https://*.b");
        assert_eq!(tidied("https://b:080"), "https://b:80");
        assert_eq!(tidied("https://b:04430"), "https://b:4430");
        assert_eq!(tidied("http://b:8080"), "http://b:8080");
        assert_eq!(tidied("https://b:*"), "https://b:*");
        assert_eq!(tidied("http://*:*"), "http://*:*");
        assert_eq!(tidied("http://a:00"), "http://a:0");
        assert_eq!(tidied("Http:"), "http:");
    }
}
