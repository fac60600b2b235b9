//! Origins and the texts that name them.

use std::borrow::Cow;

use crate::limits::MAX_HOST_BYTES;

#[derive(Clone, Copy, Debug, PartialEq, Eq)]
pub enum Scheme {
    Http,
    Https,
}

impl Scheme {
    pub const BOTH: [Scheme; 2] = [Scheme::Http, Scheme::Https];

    pub fn name(self) -> &'static str {
        match self {
            Scheme::Http => "http",
            Scheme::Https => "https",
        }
    }

    /// "the scheme's default (80, 443)"
    pub fn default_port(self) -> u16 {
        match self {
            Scheme::Http => 80,
            Scheme::Https => 443,
        }
    }
}

/// An origin of scheme, host and port.
#[derive(Clone, Debug, PartialEq, Eq)]
pub struct TupleOrigin<'a> {
    pub scheme: Scheme,
    pub host: Cow<'a, [u8]>,
    pub port: u16,
}

#[derive(Clone, Debug)]
pub enum Origin<'a> {
    Tuple(TupleOrigin<'a>),
    /// An opaque origin that a loaded document bears: named by the serial of
    /// the document it was made for, since serials are never used again.
    Opaque(u32),
    /// A fresh opaque origin that no document bears. It equals no other.
    FreshOpaque,
}

impl Origin<'_> {
    /// An opaque origin is "equal to nothing but itself and to documents that
    /// take it over".
    pub fn same_origin(&self, other: &Origin) -> bool {
        match (self, other) {
            (Origin::Tuple(a), Origin::Tuple(b)) => a == b,
            (Origin::Opaque(a), Origin::Opaque(b)) => a == b,
            _ => false,
        }
    }

    pub fn into_owned(self) -> Origin<'static> {
        match self {
            Origin::Tuple(t) => Origin::Tuple(TupleOrigin {
                scheme: t.scheme,
                host: Cow::Owned(t.host.into_owned()),
                port: t.port,
            }),
            Origin::Opaque(serial) => Origin::Opaque(serial),
            Origin::FreshOpaque => Origin::FreshOpaque,
        }
    }
}

/// What an origin text says.
#[derive(Clone, Debug)]
pub enum OriginText<'a> {
    Tuple(TupleOrigin<'a>),
    Null,
    Empty,
}

impl<'a> OriginText<'a> {
    /// "An origin text is `http://` or `https://`, a host, and perhaps `:` and
    /// a port; or `null`; or empty."
    pub fn parse(text: &'a [u8]) -> Option<Self> {
        if text.is_empty() {
            return Some(OriginText::Empty);
        }
        if text == b"null" {
            return Some(OriginText::Null);
        }
        let (scheme, rest) = if let Some(rest) = text.strip_prefix(b"https://") {
            (Scheme::Https, rest)
        } else {
            (Scheme::Http, text.strip_prefix(b"http://")?)
        };
        let (host, port) = match rest.iter().position(|&b| b == b':') {
            None => (rest, scheme.default_port()),
            Some(colon) => (
                &rest[..colon],
                parse_origin_port(&rest[colon + 1..], scheme)?,
            ),
        };
        if !is_host(host) {
            return None;
        }
        Some(OriginText::Tuple(TupleOrigin {
            scheme,
            host: Cow::Borrowed(host),
            port,
        }))
    }
}

/// "A port is 0 to 65,535 in decimal, no leading zero (`0` itself is good),
/// and never the scheme's default (80, 443)."
fn parse_origin_port(digits: &[u8], scheme: Scheme) -> Option<u16> {
    if digits.len() > 1 && digits[0] == b'0' {
        return None;
    }
    let port = decimal_port(digits)?;
    if port == scheme.default_port() {
        return None;
    }
    Some(port)
}

/// One or more decimal digits worth at most 65,535.
pub fn decimal_port(digits: &[u8]) -> Option<u16> {
    if digits.is_empty() {
        return None;
    }
    let mut value: u16 = 0;
    for &b in digits {
        if !b.is_ascii_digit() {
            return None;
        }
        value = value.checked_mul(10)?.checked_add(u16::from(b - b'0'))?;
    }
    Some(value)
}

/// "A host is 1 to 253 bytes of lower-case letters, digits and hyphens in
/// labels parted by single dots, no label empty."
pub fn is_host(host: &[u8]) -> bool {
    host.len() <= MAX_HOST_BYTES && host.split(|&b| b == b'.').all(is_label)
}

fn is_label(label: &[u8]) -> bool {
    !label.is_empty()
        && label
            .iter()
            .all(|&b| b.is_ascii_lowercase() || b.is_ascii_digit() || b == b'-')
}

#[cfg(test)]
mod tests {
    use super::*;

    fn good(text: &str) -> bool {
        OriginText::parse(text.as_bytes()).is_some()
    }

    #[test]
    fn origin_texts() {
        for text in [
            "",
            "null",
            "http://a",
            "https://a.example",
            "https://127.0.0.1:0",
            "https://a-b.c:80",
            "http://a:443",
            "http://-:65535",
        ] {
            assert!(good(text), "{text}");
        }
        for text in [
            "Null",
            " null",
            "a.example",
            "HTTPS://a.example",
            "https://A.example",
            "https://",
            "https://.a",
            "https://a.",
            "https://a..b",
            "https://a_b",
            "https://*.a",
            "https://a:",
            "https://a:443",
            "http://a:80",
            "http://a:0443",
            "http://a:00",
            "http://a:65536",
            "http://a:100000",
            "http://a:+1",
            "http://a:8:8",
            "http://a/",
            "http:/a",
            "ftp://a",
            "https:",
        ] {
            assert!(!good(text), "{text}");
        }
    }

    #[test]
    fn hosts_of_253_and_254() {
        let host = "a".repeat(253);
        assert!(good(&format!("https://{host}")));
        assert!(!good(&format!("https://{host}a")));
    }

    #[test]
    fn opaque_origins() {
        assert!(Origin::Opaque(3).same_origin(&Origin::Opaque(3)));
        assert!(!Origin::Opaque(3).same_origin(&Origin::Opaque(4)));
        assert!(!Origin::FreshOpaque.same_origin(&Origin::FreshOpaque));
        assert!(!Origin::FreshOpaque.same_origin(&Origin::Opaque(1)));
    }
}
