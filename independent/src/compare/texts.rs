//! Random texts: origins, expressions, headers, allow and sandbox attributes;
//! good ones, near misses and damaged ones.

use super::random::Random;
use crate::attributes::features_by_keyword;
use crate::expressions::{HostPart, PortPart, SourceExpression};
use crate::features::{default_is_all, FEATURES, FEATURE_COUNT, PLUGINS};
use crate::limits::{
    MAX_FRACTION_DIGITS, MAX_HOST_BYTES, MAX_INTEGER_DIGITS, MAX_TEXT_BYTES, MAX_TIDIED_BYTES,
    MAX_WHOLE_DIGITS,
};
use crate::origins::is_host;

/// What the texts of one session tend to.
#[derive(Clone, Debug)]
pub struct Mood {
    /// The features that most texts and questions are about.
    pub features: Vec<usize>,
    /// The origins that most texts and questions name.
    pub origins: Vec<String>,
    /// How many texts of a hundred are flawed or damaged.
    pub damage: usize,
    /// How many texts of a thousand are near or over the limit.
    pub long: usize,
    /// How many texts of a hundred are written with needless `%XX`.
    pub escapes: usize,
    /// How many frames of a hundred have a sandbox attribute.
    pub sandbox: usize,
}

const HOSTS: [&str; 6] = [
    "a.example",
    "b.example",
    "sub.b.example",
    "x.sub.b.example",
    "xb.example",
    "example",
];

impl Mood {
    pub fn new(random: &mut Random) -> Self {
        let mut features: Vec<usize> = (0..random.between(2, 4))
            .map(|_| random.below(FEATURE_COUNT))
            .collect();
        // The features of the edge cases: camera, forms, fullscreen.
        features.extend([0, 3, 4].iter().filter(|_| random.percent(60)));
        let sandbox = *random.pick(&[0, 15, 25, 60, 80]);
        // Where sandbox attributes are usual, some of what they close.
        if sandbox >= 60 {
            features.extend((0..2).map(|_| *random.pick(&default_all_features())));
        }
        let mut origins = vec![
            "https://a.example".to_string(),
            "https://b.example".to_string(),
        ];
        for _ in 0..random.between(1, 3) {
            origins.push(pool_origin(random));
        }
        // Mostly one host with both schemes and every kind of port.
        if random.percent(60) {
            let host = random.word(&HOSTS);
            origins.extend(origins_of_host(random, host));
        }
        Mood {
            features,
            origins,
            damage: *random.pick(&[0, 3, 10, 10, 25]),
            long: *random.pick(&[0, 5, 15, 40]),
            escapes: *random.pick(&[0, 5, 30]),
            sandbox,
        }
    }

    /// For long sessions that are kept: few long texts.
    pub fn keeping_short(mut self) -> Self {
        self.long = self.long.min(4);
        self.escapes = self.escapes.min(5);
        self
    }
}

// ---------------------------------------------------------------- bytes

/// Bytes that mean something somewhere.
const TELLING_BYTES: &[u8] = b",;=()\"\\ \t:*?-./'%aA0190_@[`{\n\r\x0b\x0c\x00\x1f\x7f\x80\xa0\xff";

fn any_byte(random: &mut Random) -> u8 {
    if random.percent(80) {
        *random.pick(TELLING_BYTES)
    } else {
        random.byte()
    }
}

/// Deletes, inserts, replaces or doubles a byte, once or a few times.
pub fn damage(random: &mut Random, text: &mut Vec<u8>) {
    for _ in 0..*random.pick(&[1, 1, 1, 2, 3]) {
        let place = random.below(text.len());
        match random.below(5) {
            _ if text.is_empty() => text.push(any_byte(random)),
            0 => {
                text.remove(place);
            }
            1 => text.insert(random.below(text.len() + 1), any_byte(random)),
            2 => text[place] = any_byte(random),
            3 => text.insert(place, text[place]),
            _ => {
                let other = random.below(text.len());
                text.swap(place, other);
            }
        }
    }
}

fn random_bytes(random: &mut Random) -> Vec<u8> {
    (0..random.between(1, 12))
        .map(|_| any_byte(random))
        .collect()
}

/// Some letters in the other case.
fn mixed_case(random: &mut Random, text: &str) -> String {
    text.chars()
        .map(|c| {
            if random.percent(50) {
                c.to_ascii_uppercase()
            } else {
                c.to_ascii_lowercase()
            }
        })
        .collect()
}

fn maybe_mixed_case(random: &mut Random, text: &str) -> String {
    if random.percent(25) {
        mixed_case(random, text)
    } else {
        text.to_string()
    }
}

/// A length around the limit.
fn length_near(random: &mut Random, limit: usize) -> usize {
    *random.pick(&[limit - 1, limit, limit, limit + 1])
}

/// A length around the limit, now and then far over it, or long and well
/// within it.
fn text_length(random: &mut Random) -> usize {
    if random.permille(5) {
        return 70_000;
    }
    match random.below(100) {
        0..=11 => *random.pick(&[5000, 2 * MAX_TEXT_BYTES, 10_000]),
        12..=29 => *random.pick(&[1025, 1100, 2048, 3100, 4000]),
        _ => length_near(random, MAX_TEXT_BYTES),
    }
}

// -------------------------------------------------------------- origins

/// A host of so many bytes. The longer ones end in the shorter ones.
fn long_host(length: usize) -> String {
    let letters = b"a.b.";
    let mut host: Vec<u8> = (0..length)
        .rev()
        .map(|from_end| letters[from_end % letters.len()])
        .collect();
    if let Some(first) = host.first_mut().filter(|first| **first == b'.') {
        *first = b'c';
    }
    String::from_utf8(host).unwrap_or_default()
}

fn pool_origin(random: &mut Random) -> String {
    let scheme = *random.pick(&["https", "https", "http"]);
    let port = match random.below(8) {
        0 => ":8080",
        1 => *random.pick(&[":444", ":0", ":65535", ":1", ":10000"]),
        // The other scheme's default.
        2 if scheme == "http" => ":443",
        2 => ":80",
        _ => "",
    };
    format!("{scheme}://{}{port}", random.pick(&HOSTS))
}

/// Both schemes at their default port, at the other's and at another.
fn origins_of_host(random: &mut Random, host: &str) -> Vec<String> {
    let other = random.word(&[":8080", ":444", ":0", ":65535"]);
    vec![
        format!("http://{host}"),
        format!("https://{host}"),
        format!("http://{host}:443"),
        format!("https://{host}:80"),
        format!("http://{host}{other}"),
        format!("https://{host}{other}"),
    ]
}

/// A good origin text, mostly one of R-3's kinds, each as often as the others.
pub fn origin_of_either_scheme(random: &mut Random, mood: &Mood) -> String {
    if random.percent(30) {
        return good_origin(random, mood);
    }
    let host = random.word(&HOSTS);
    let origins = origins_of_host(random, host);
    random.pick(&origins).clone()
}

/// An origin that the expression admits, or that only its scheme or its port
/// keeps out; where no longer host fits, the bare one.
pub fn origin_near(random: &mut Random, expression: &SourceExpression) -> Vec<u8> {
    let (host, port) = match expression {
        SourceExpression::SchemeOnly(_) => (&HostPart::Any, PortPart::Any),
        SourceExpression::Full { host, port, .. } => (host, *port),
    };
    let host = match host {
        HostPart::Any => random.word(&HOSTS).to_string(),
        HostPart::Exact(host) => String::from_utf8_lossy(host).into_owned(),
        HostPart::Beneath(host) => {
            let host = String::from_utf8_lossy(host);
            let beneath = format!("{}.{host}", random.pick(&["x", "a", "sub", "x.sub"]));
            if is_host(beneath.as_bytes()) {
                beneath
            } else {
                host.into_owned()
            }
        }
    };
    let scheme = random.word(&["http", "https", "https"]);
    let port = match (random.below(12), port) {
        (0..=2, PortPart::One(port)) => port,
        (0..=3, _) if scheme == "http" => 80,
        (0..=3, _) => 443,
        (4..=6, _) => 80,
        (7..=8, _) => 443,
        _ => *random.pick(&[8080, 444, 0, 65535]),
    };
    match (scheme, port) {
        ("http", 80) | ("https", 443) => format!("{scheme}://{host}"),
        _ => format!("{scheme}://{host}:{port}"),
    }
    .into_bytes()
}

/// A good origin text that is neither `null` nor empty.
pub fn good_origin(random: &mut Random, mood: &Mood) -> String {
    match random.below(100) {
        0..=74 => random.pick(&mood.origins).clone(),
        75..=93 => pool_origin(random),
        94..=96 => {
            let length = *random.pick(&[1, MAX_HOST_BYTES - 2, MAX_HOST_BYTES - 1, MAX_HOST_BYTES]);
            format!("https://{}", long_host(length))
        }
        97 => {
            let long = long_host(MAX_HOST_BYTES);
            let port = *random.pick(&[":0", ":65535", ""]);
            format!("http://{long}{port}")
        }
        _ => random
            .pick(&[
                "http://-",
                "https://0.-0",
                "http://1",
                "https://127.0.0.1:1",
            ])
            .to_string(),
    }
}

/// Mostly outside the grammar.
fn bad_origin(random: &mut Random, mood: &Mood) -> Vec<u8> {
    let good = good_origin(random, mood);
    let (scheme, rest) = good.split_once("://").unwrap_or(("https", "a.example"));
    let host = rest.split(':').next().unwrap_or(rest);
    let text = match random.below(21) {
        16 => {
            // Far too long; bad, not too long.
            let length = *random.pick(&[300, MAX_TEXT_BYTES, MAX_TEXT_BYTES + 1, 5000]);
            format!("{scheme}://{}", long_host(length))
        }
        0 => format!("{scheme}://{}", long_host(MAX_HOST_BYTES + 1)),
        1 => format!("{scheme}://{}:8080", long_host(MAX_HOST_BYTES + 1)),
        2 => mixed_case(random, &good),
        3 => format!("{scheme}://{host}:{}", random.pick(BAD_PORTS)),
        4 if scheme == "http" => format!("http://{host}:80"),
        4 => format!("https://{host}:443"),
        5 => random
            .pick(&["NULL", "null ", "Null", "nul", "nulll", "0", " "])
            .to_string(),
        6 => format!("{scheme}://{}", bad_host(random, host)),
        7 => format!(
            "{}{rest}",
            random.pick(&["", "//", "ftp://", "ws://", "http:/", "https:"])
        ),
        8 => format!("{good}{}", random.pick(&["/", "/p", "?", "#", " ", ":"])),
        9 => format!(" {good}"),
        10 => format!("{scheme}:"),
        11 => format!("{scheme}://"),
        12 => format!("{scheme}://*"),
        13 => format!("{scheme}://*.{host}"),
        14 => format!("{scheme}://u@{host}"),
        15 => format!("{scheme}://[::1]"),
        _ => {
            let mut text = good.into_bytes();
            damage(random, &mut text);
            return text;
        }
    };
    text.into_bytes()
}

const BAD_PORTS: &[&str] = &[
    "",
    "00",
    "080",
    "0443",
    "65536",
    "99999",
    "100000",
    "065535",
    "-1",
    "+1",
    "8a",
    "*",
    " 1",
    "1 ",
    "18446744073709551617",
];

fn bad_host(random: &mut Random, host: &str) -> String {
    match random.below(9) {
        0 => format!("{host}."),
        1 => format!(".{host}"),
        2 => host.replacen('.', "..", 1),
        3 => host.replacen('a', "_", 1),
        4 => format!("*{host}"),
        5 => format!("{host}.*"),
        6 => format!("{host}*"),
        7 => host.replacen('e', "\u{e9}", 1),
        _ => String::new(),
    }
}

/// How often, of a hundred, an origin text is null, empty or bad.
#[derive(Clone, Copy, Debug)]
pub struct OriginShares {
    pub null: usize,
    pub empty: usize,
    pub bad: usize,
}

pub fn origin_text(random: &mut Random, mood: &Mood, shares: OriginShares) -> Vec<u8> {
    let throw = random.below(100);
    if throw < shares.null {
        b"null".to_vec()
    } else if throw < shares.null + shares.empty {
        Vec::new()
    } else if throw < shares.null + shares.empty + shares.bad {
        bad_origin(random, mood)
    } else {
        good_origin(random, mood).into_bytes()
    }
}

// ---------------------------------------------------------- expressions

/// A source expression, mostly a good one that has to do with the session's
/// origins.
pub fn expression(random: &mut Random, mood: &Mood) -> Vec<u8> {
    if random.percent(12) {
        return near_expression(random, mood);
    }
    let origin = good_origin(random, mood);
    if random.percent(40) {
        return expression_about(random, &origin).into_bytes();
    }
    let (scheme, rest) = origin.split_once("://").unwrap_or(("https", "a.example"));
    let (host, port) = match rest.split_once(':') {
        Some((host, port)) => (host, Some(port)),
        None => (rest, None),
    };
    let scheme = match random.below(100) {
        0..=24 => "http",
        25..=39 => "https",
        _ => scheme,
    };
    let text = if random.percent(7) {
        format!("{scheme}:")
    } else {
        let host_part = match random.below(100) {
            0..=7 => "*".to_string(),
            // Admits the origin, if the host has two labels.
            8..=25 => match host.split_once('.') {
                Some((_, parent)) => format!("*.{parent}"),
                None => format!("*.{host}"),
            },
            // The bare host: doesn't admit it.
            26..=33 => format!("*.{host}"),
            34..=35 => format!("*.{}", long_host(MAX_HOST_BYTES - random.below(4))),
            // Ends alike, but without the dot before.
            36..=40 if !host[1..].starts_with('.') && host.len() > 1 => format!("*.{}", &host[1..]),
            _ => host.to_string(),
        };
        format!("{scheme}://{host_part}{}", port_part(random, scheme, port))
    };
    maybe_mixed_case(random, &text).into_bytes()
}

/// An expression that admits the origin, or that only its scheme or its port
/// keeps from it: each kind of R-3 about as often as the others.
fn expression_about(random: &mut Random, origin: &str) -> String {
    let (_, rest) = origin.split_once("://").unwrap_or(("https", "a.example"));
    let (host, port) = rest.split_once(':').unwrap_or((rest, "8080"));
    let scheme = random.word(&["http", "http", "https"]);
    let host_part = match (random.below(12), host.split_once('.')) {
        (0, _) => return maybe_mixed_case(random, &format!("{scheme}:")),
        (1..=3, _) => "*".to_string(),
        (4..=6, Some((_, parent))) => format!("*.{parent}"),
        _ => host.to_string(),
    };
    let port = match random.below(12) {
        0..=2 => String::new(),
        3..=5 => written_port(random, "80"),
        6..=7 => written_port(random, "443"),
        8..=9 => written_port(random, port),
        _ => ":*".to_string(),
    };
    maybe_mixed_case(random, &format!("{scheme}://{host_part}{port}"))
}

/// The port of an expression, mostly one that admits the port given.
fn port_part(random: &mut Random, scheme: &str, port: Option<&str>) -> String {
    let default = if scheme == "http" { "80" } else { "443" };
    match (random.below(20), port) {
        (0..=2, _) => ":*".to_string(),
        (3, _) => format!(":{}", random.pick(GOOD_PORTS)),
        // One of the two default ports.
        (4..=6, _) => {
            let port = random.word(&["80", "443"]);
            written_port(random, port)
        }
        (7..=9, Some(_)) | (7..=16, None) => String::new(),
        (_, _) => written_port(random, port.unwrap_or(default)),
    }
}

/// `:` and the port, now and then with leading zeros.
fn written_port(random: &mut Random, port: &str) -> String {
    let zeros = random.below(6usize.saturating_sub(port.len()));
    let zeros = if random.percent(60) { 0 } else { zeros };
    format!(":{}{port}", "0".repeat(zeros))
}

/// An expression of a list once more, with another port or scheme: one that
/// tidying takes for the same or that differs by just that.
fn expression_again(random: &mut Random, earlier: &str) -> String {
    let Some((scheme, rest)) = earlier.split_once("://") else {
        return earlier.to_string();
    };
    let host = rest.split(':').next().unwrap_or(rest);
    let scheme = match random.below(6) {
        0 => "http",
        1 => "https",
        _ => scheme,
    };
    let port = match (random.below(8), scheme) {
        (0..=2, _) => String::new(),
        (3..=5, "https") | (6, "http") => written_port(random, "443"),
        (3..=6, _) => written_port(random, "80"),
        _ => random.word(&[":*", ":8080", ":0"]).to_string(),
    };
    format!("{scheme}://{host}{port}")
}

const GOOD_PORTS: &[&str] = &[
    "0", "00", "00000", "80", "080", "443", "0443", "00443", "444", "8080", "65535", "1",
];

/// Mostly no expression, but close to one.
fn near_expression(random: &mut Random, mood: &Mood) -> Vec<u8> {
    let origin = good_origin(random, mood);
    let (scheme, rest) = origin.split_once("://").unwrap_or(("https", "a.example"));
    let host = rest.split(':').next().unwrap_or(rest);
    let text = match random.below(22) {
        0 => format!("{scheme}://{host}/"),
        1 => format!("{scheme}://{host}/path"),
        2 => format!("{scheme}://{host}:*/"),
        3 => format!("{scheme}:/"),
        4 => format!("{scheme}://"),
        5 => rest.to_string(),
        6 => format!("//{rest}"),
        7 => format!(
            "{}{rest}",
            random.pick(&["ftp://", "ws://", "wss://", "data:", "httpss://"])
        ),
        8 => format!(
            "{}:",
            random.pick(&["ftp", "ws", "htt", "httpss", "", "data"])
        ),
        9 => format!("{scheme}://{}", bad_host(random, host)),
        10 => format!("{scheme}://{}", long_host(MAX_HOST_BYTES + 1)),
        11 => format!("{scheme}://*.{}", long_host(MAX_HOST_BYTES + 1)),
        12 => format!("{scheme}://{host}:{}", random.pick(BAD_EXPRESSION_PORTS)),
        13 => format!("{scheme}://*.*.{host}"),
        14 => format!("{scheme}://*."),
        15 => format!("{scheme}://*.{}", bad_host(random, host)),
        16 => format!("{scheme}:{host}"),
        17 => scheme.to_string(),
        18 => random
            .pick(&[
                "null", "self", "src", "none", "'self", "self'", "\"\"", "**", "'*'", "data",
            ])
            .to_string(),
        _ => {
            let mut text = origin.into_bytes();
            damage(random, &mut text);
            return text;
        }
    };
    text.into_bytes()
}

const BAD_EXPRESSION_PORTS: &[&str] = &[
    "",
    "65536",
    "99999",
    "000080",
    "000443",
    "100000",
    "-1",
    "+1",
    "8a",
    "**",
    "*0",
    "0*",
    " 80",
    "4294967739",
];

// -------------------------------------------------------------- headers

/// The ten features with default `*`, which a sandbox attribute closes.
fn default_all_features() -> Vec<usize> {
    (0..FEATURE_COUNT).filter(|&f| default_is_all(f)).collect()
}

/// One of the ten, half of the time one that the session is about.
pub fn default_all_feature(random: &mut Random, mood: &Mood) -> usize {
    let mut liked = mood.features.clone();
    liked.retain(|&f| default_is_all(f));
    if !liked.is_empty() && random.percent(50) {
        *random.pick(&liked)
    } else {
        *random.pick(&default_all_features())
    }
}

fn feature_name(random: &mut Random, mood: &Mood) -> &'static str {
    let feature = if random.percent(85) {
        *random.pick(&mood.features)
    } else {
        random.below(FEATURE_COUNT)
    };
    FEATURES[feature].name
}

/// A key of the grammar that names no feature (or hardly ever).
fn unknown_key(random: &mut Random, mood: &Mood) -> String {
    match random.below(6) {
        0 => random
            .pick(&[
                "a", "*", "*k", "x-y", "foo", "a.b", "a_1", "self", "cam", "z*",
            ])
            .to_string(),
        1 => format!("{}x", feature_name(random, mood)),
        2 => format!("{}2", feature_name(random, mood)),
        3 => {
            let name = feature_name(random, mood);
            name[..name.len() - 1].to_string()
        }
        _ => {
            let mut key = String::from(*random.pick(&["a", "b", "q", "*"]));
            for _ in 0..random.below(5) {
                key.push(*random.pick(&['a', 'z', '0', '9', '_', '-', '.', '*']));
            }
            key
        }
    }
}

fn digits(random: &mut Random, count: usize) -> String {
    (0..count)
        .map(|_| char::from(b'0' + random.below(10) as u8))
        .collect()
}

/// A bare item of the grammar, of any kind.
fn bare_item(random: &mut Random, mood: &Mood) -> String {
    match random.below(12) {
        0 => {
            let sign = *random.pick(&["", "", "-"]);
            let count = *random.pick(&[1, 1, 2, 12, 13, MAX_INTEGER_DIGITS]);
            format!("{sign}{}", digits(random, count))
        }
        1 | 2 => {
            let sign = *random.pick(&["", "", "-"]);
            let whole = *random.pick(&[1, 2, MAX_WHOLE_DIGITS]);
            let fraction = *random.pick(&[1, 2, MAX_FRACTION_DIGITS]);
            format!(
                "{sign}{}.{}",
                digits(random, whole),
                digits(random, fraction)
            )
        }
        3 | 4 => {
            let mut content = String::new();
            for _ in 0..random.below(6) {
                content.push_str(random.word(&[
                    "a", "Z", " ", "\\\"", "\\\\", "~", "!", "(", ")", ",", ";", "=", "é", ":", "*",
                ]));
            }
            // The grammar has no byte above 0x7f.
            format!("\"{}\"", content.replace('é', "'"))
        }
        5 => random
            .pick(&[
                "*", "self", "none", "src", "Self", "SELF", "*a", "self*", "**", "null",
            ])
            .to_string(),
        6 | 7 => {
            let mut token = String::from(*random.pick(&["a", "Z", "*", "tok"]));
            for _ in 0..random.below(5) {
                token.push(*random.pick(&[
                    'a', 'Z', '0', '!', '#', '$', '%', '&', '\'', '*', '+', '-', '.', '^', '_',
                    '`', '|', '~', ':', '/',
                ]));
            }
            token
        }
        8 | 9 => {
            let mut content = String::new();
            for _ in 0..random.below(5) {
                content.push(*random.pick(&['a', 'Z', '0', '9', '+', '/', '=']));
            }
            format!(":{content}:")
        }
        10 => random.pick(&["?0", "?1"]).to_string(),
        _ => {
            let expression = expression(random, mood);
            quoted(&String::from_utf8_lossy(&expression))
        }
    }
}

/// The text as a string of the grammar, as far as it can be one.
fn quoted(text: &str) -> String {
    let mut string = String::from("\"");
    for c in text.chars().filter(|c| (' '..='~').contains(c)) {
        if c == '"' || c == '\\' {
            string.push('\\');
        }
        string.push(c);
    }
    string.push('"');
    string
}

/// Something that is no bare item, or ends as none.
fn bad_bare_item(random: &mut Random) -> String {
    match random.below(16) {
        0 => {
            let sign = *random.pick(&["", "-"]);
            format!("{sign}{}", digits(random, MAX_INTEGER_DIGITS + 1))
        }
        1 => {
            let whole = *random.pick(&[MAX_WHOLE_DIGITS + 1, MAX_INTEGER_DIGITS]);
            let fraction = *random.pick(&[1, MAX_FRACTION_DIGITS]);
            format!("{}.{}", digits(random, whole), digits(random, fraction))
        }
        2 => {
            let whole = *random.pick(&[1, MAX_WHOLE_DIGITS]);
            let fraction = MAX_FRACTION_DIGITS + 1;
            format!("{}.{}", digits(random, whole), digits(random, fraction))
        }
        3 => {
            let whole = *random.pick(&[1, 2, MAX_WHOLE_DIGITS]);
            format!("{}.", digits(random, whole))
        }
        4 => "-".to_string(),
        5 => random
            .pick(&["--1", "+1", ".5", "-.5", "1..2", "1.2.3", "1-", "-a"])
            .to_string(),
        6 => random.pick(&["?2", "?", "??", "?01", "?T"]).to_string(),
        7 => random
            .pick(&[":", ":a", ":a b:", ":*:", ":\"\":", ":a"])
            .to_string(),
        8 => format!(":a{}:", random.pick(&["-", "_", ".", "~", "!", ","])),
        9 => random.pick(&["\"", "\"a", "\"\\\"", "\"\\"]).to_string(),
        10 => random
            .pick(&["\"\\a\"", "\"\\n\"", "\"\\'\"", "\"a\\ \""])
            .to_string(),
        11 => format!(
            "\"a{}\"",
            random.pick(&["\t", "\n", "\0", "\u{1f}", "\u{7f}", "\u{80}", "\u{e9}"])
        ),
        12 => random
            .pick(&["'a'", "(", ")", "()", "((a))", "{}", "[]", "<a>"])
            .to_string(),
        13 => random
            .pick(&["@", "/a", "#", "_a", "!", "^a", "~", "&", "|", "%"])
            .to_string(),
        14 => format!("a{}", random.pick(&["\u{e9}", "\"", "(", "@", "\\", "\0"])),
        _ => String::new(),
    }
}

/// Something that is no key, or ends as none.
fn bad_key(random: &mut Random, mood: &Mood) -> String {
    let name = feature_name(random, mood);
    match random.below(5) {
        0 => format!(
            "{}{name}",
            random.pick(&["_", "-", ".", "1", "A", "!", "'"])
        ),
        1 => format!(
            "{name}{}",
            random.pick(&["A", "!", "'", "/", ":", "%", "\u{e9}"])
        ),
        2 => mixed_case(random, name),
        3 => format!("\"{name}\""),
        _ => String::new(),
    }
}

fn parameters(random: &mut Random, mood: &Mood) -> String {
    let mut text = String::new();
    for _ in 0..random.between(1, 2) {
        text.push(';');
        text.push_str(random.word(&["", "", " ", "  "]));
        text.push_str(&unknown_key(random, mood));
        if random.percent(60) {
            text.push('=');
            text.push_str(&bare_item(random, mood));
        }
    }
    text
}

fn maybe_parameters(random: &mut Random, mood: &Mood, percent: usize) -> String {
    if random.percent(percent) {
        parameters(random, mood)
    } else {
        String::new()
    }
}

/// An item of a feature's list.
fn list_item(random: &mut Random, mood: &Mood) -> String {
    match random.below(100) {
        0..=24 => "self".to_string(),
        25..=29 => "*".to_string(),
        30..=84 => {
            let expression = expression(random, mood);
            quoted(&String::from_utf8_lossy(&expression))
        }
        85..=88 => random
            .pick(&[
                "\"self\"",
                "\"*\"",
                "\"'self'\"",
                "\"\"",
                "\"junk\"",
                "\"null\"",
                "\"none\"",
            ])
            .to_string(),
        _ => bare_item(random, mood),
    }
}

fn inner_list(random: &mut Random, mood: &Mood) -> String {
    let count = *random.pick(&[0, 1, 1, 1, 2, 2, 3, 4, 6]);
    let mut text = String::from("(");
    let mut items: Vec<String> = Vec::new();
    for _ in 0..count {
        // Now and then one of the earlier again.
        let item = if !items.is_empty() && random.percent(15) {
            let earlier = random.pick(&items).clone();
            maybe_mixed_case(random, &earlier)
        } else if !items.is_empty() && random.percent(30) {
            // Or the one before with another port or scheme.
            match items
                .last()
                .and_then(|i| i.strip_prefix('"')?.strip_suffix('"'))
            {
                Some(earlier) => format!("\"{}\"", expression_again(random, earlier)),
                None => list_item(random, mood),
            }
        } else {
            list_item(random, mood)
        };
        items.push(item);
    }
    for (index, item) in items.iter().enumerate() {
        if index > 0 {
            text.push(' ');
        }
        if random.percent(8) {
            text.push_str(random.word(&[" ", "  "]));
        }
        text.push_str(item);
        text.push_str(&maybe_parameters(random, mood, 7));
    }
    text.push_str(random.word(&["", "", "", "", " "]));
    text.push(')');
    text
}

/// `=` and a value, or nothing.
fn member_value(random: &mut Random, mood: &Mood) -> String {
    match random.below(100) {
        0..=54 => format!("={}", inner_list(random, mood)),
        55..=62 => "=*".to_string(),
        63..=70 => "=self".to_string(),
        71..=82 => {
            let expression = expression(random, mood);
            format!("={}", quoted(&String::from_utf8_lossy(&expression)))
        }
        83..=94 => format!("={}", bare_item(random, mood)),
        _ => String::new(),
    }
}

fn member(random: &mut Random, mood: &Mood) -> String {
    let key = if random.percent(85) {
        feature_name(random, mood).to_string()
    } else {
        unknown_key(random, mood)
    };
    let value = member_value(random, mood);
    let parameters = maybe_parameters(random, mood, 10);
    format!("{key}{value}{parameters}")
}

fn comma(random: &mut Random) -> &'static str {
    random.word(&[",", ",", ", ", ", ", ", ", ",\t", " ,", "\t,\t", " , \t"])
}

/// A dictionary of the grammar.
fn dictionary(random: &mut Random, mood: &Mood) -> String {
    let count = *random.pick(&[1, 1, 2, 2, 3, 3, 4, 5, 8]);
    let mut text = String::from(*random.pick(&["", "", "", "", " ", "   "]));
    for index in 0..count {
        if index > 0 {
            text.push_str(comma(random));
        }
        text.push_str(&member(random, mood));
    }
    text.push_str(random.word(&["", "", "", "", "", " ", "\t", "  "]));
    text
}

/// A dictionary with one slip that people make.
fn flawed_dictionary(random: &mut Random, mood: &Mood) -> String {
    let name = feature_name(random, mood);
    let more = member(random, mood);
    if random.percent(50) {
        let bad = bad_bare_item(random);
        return match random.below(5) {
            0 => format!("{more}, {name}={bad}"),
            1 => format!("{name}={bad}, {more}"),
            2 => format!("{name}=(self {bad})"),
            3 => format!("{name}=({bad} self), {more}"),
            _ => format!("{name}=*;x={bad}"),
        };
    }
    if random.percent(15) {
        let bad = bad_key(random, mood);
        return match random.below(3) {
            0 => format!("{more}, {bad}=*"),
            1 => format!("{bad}=self, {more}"),
            _ => format!("{name}=*;{bad}=1"),
        };
    }
    let good = dictionary(random, mood);
    match random.below(17) {
        0 => format!("{good},"),
        1 => format!("{good}, "),
        2 => format!(",{good}"),
        3 => format!("{good},,{more}"),
        4 => format!("\t{more}"),
        5 => format!("{good}; {more}"),
        6 => format!("{name} ={good}"),
        7 => format!("{name}= {}", list_item(random, mood)),
        8 => format!("{name}=(self\t{})", list_item(random, mood)),
        9 => format!("{name}=(self,{})", list_item(random, mood)),
        10 => format!("{name}=({}", list_item(random, mood)),
        11 => format!("{name}=(\t{})", list_item(random, mood)),
        12 => format!("{name}=(self \t{})", list_item(random, mood)),
        13 => format!("{name}=* ;x"),
        14 => format!("{name}=*;\tx, {more}"),
        15 => {
            let expression = expression(random, mood);
            let string = quoted(&String::from_utf8_lossy(&expression));
            format!("{name}=({}{string})", list_item(random, mood))
        }
        _ => format!("{name}=*;x={}", inner_list(random, mood)),
    }
}

/// A dictionary of exactly so many bytes, if it can be made.
fn padded_header(random: &mut Random, mood: &Mood, length: usize) -> Vec<u8> {
    let text = dictionary(random, mood);
    let missing = length.saturating_sub(text.len());
    let padded = match random.below(5) {
        // What counts stands at the end, or at the start.
        0 => format!("{}{text}", " ".repeat(missing)),
        1 => format!("{text}{}", " ".repeat(missing)),
        2 if missing > 4 => format!("z=\"{}\",{}", "y".repeat(missing - 5), text.trim_start()),
        3 if missing > 4 => {
            format!(
                "{},z=:{}:",
                text.trim_end(),
                "y".repeat(missing.saturating_sub(5))
            )
        }
        4 if missing > 3 => {
            format!(
                "z={},{}",
                "t".repeat(missing.saturating_sub(3)),
                text.trim_start()
            )
        }
        _ => format!("{text}{}", "\t".repeat(missing)),
    };
    let mut padded = padded.into_bytes();
    // Trimming took spaces away.
    while padded.len() < length {
        padded.push(b' ');
    }
    padded
}

/// A header within the limit whose tidied form is about at it: tidying adds
/// brackets to a single item, and a space after each comma.
fn header_that_grows(random: &mut Random) -> Vec<u8> {
    let members = random.between(4, FEATURE_COUNT);
    let mut features: Vec<usize> = (0..FEATURE_COUNT).collect();
    for index in 0..members {
        let other = random.between(index, FEATURE_COUNT - 1);
        features.swap(index, other);
    }
    features.truncate(members);
    let target = MAX_TIDIED_BYTES + random.pick(&[0, 1, 2, 2, 2, 3, 3, 4, 5]) - 2;
    let mut lists: Vec<Vec<String>> = vec![Vec::new(); members];
    // What the tidied form has so far: names, `=()` and `, `.
    let names: usize = features.iter().map(|&f| FEATURES[f].name.len()).sum();
    let mut length = names + 3 * members + 2 * (members - 1);
    for number in 0.. {
        let list = random.pick_mut(&mut lists);
        let space = usize::from(!list.is_empty());
        let room = target - length;
        if space == 0 && room > MAX_HOST_BYTES && random.percent(20) {
            list.push("self".to_string());
            length += "self".len();
            continue;
        }
        // Tidying keeps these as they are.
        let (scheme, port) = *random.pick(&[("https", ""), ("http", ""), ("http", ":80")]);
        let around = space + format!("\"{scheme}://{port}\"").len();
        // Enough is left for another, or this is the last.
        let last = room <= around + MAX_HOST_BYTES;
        let host = if last {
            room - around
        } else {
            random.between(60, MAX_HOST_BYTES).min(room - around - 30)
        };
        // No two are alike.
        let host = format!("{number:02}{}", long_host(host - 2));
        list.push(format!("\"{scheme}://{host}{port}\""));
        length += around + host.len();
        if last {
            break;
        }
    }
    let mut text = Vec::new();
    for (&feature, list) in features.iter().zip(&lists) {
        let name = FEATURES[feature].name;
        text.push(match &list[..] {
            [item] if random.percent(80) => format!("{name}={item}"),
            _ => format!("{name}=({})", list.join(" ")),
        });
    }
    text.join(",").into_bytes()
}

/// A dictionary of so many bytes with as many parts of one kind as fit in.
fn crowded_header(random: &mut Random, mood: &Mood, length: usize) -> Vec<u8> {
    let name = feature_name(random, mood);
    let kind = *random.pick(&[0, 0, 0, 1, 2, 3, 4, 5]);
    let (mut text, end) = match kind {
        0..=2 => {
            let end = random.word(&[")", ")", "self)", "\"https://b.example\")", "*)"]);
            (format!("{name}=("), end.to_string())
        }
        3 => (member(random, mood) + ",", member(random, mood)),
        4 => (
            String::new(),
            format!("{name}={}", inner_list(random, mood)),
        ),
        _ => (format!("{name}=self"), String::new()),
    };
    let first = expression_about(random, "https://b.example");
    for number in 0.. {
        let part = match kind {
            // Expressions, all different.
            0 => {
                let scheme = random.word(&["http", "https"]);
                format!("\"{scheme}://{number}\" ")
            }
            // Few different ones.
            1 => format!("\"{}\" ", expression_again(random, &first)),
            // Items that count for nothing.
            2 => random
                .word(&["1 ", "a ", "?0 ", "\"\" ", "Self ", "::  "])
                .to_string(),
            3 => format!("k{number},"),
            4 => format!(
                "{name}={},",
                random.word(&["*", "1", "()", "self", "(self)"])
            ),
            _ => format!(";p{number}"),
        };
        if text.len() + part.len() + end.len() > length {
            break;
        }
        text.push_str(&part);
    }
    text.push_str(&end);
    let mut text = text.into_bytes();
    text.resize(text.len().max(length), b' ');
    text
}

/// A header near or over the limit.
fn long_header(random: &mut Random, mood: &Mood) -> Vec<u8> {
    if random.percent(20) {
        return header_that_grows(random);
    }
    let length = text_length(random);
    if random.percent(40) {
        return crowded_header(random, mood, length);
    }
    padded_header(random, mood, length)
}

/// A header of a top-level document: long twice as often.
pub fn top_level_header(random: &mut Random, mood: &Mood) -> Vec<u8> {
    if random.permille(mood.long) {
        return long_header(random, mood);
    }
    header(random, mood)
}

pub fn header(random: &mut Random, mood: &Mood) -> Vec<u8> {
    if random.permille(mood.long) {
        return long_header(random, mood);
    }
    if random.percent(mood.damage) {
        return match random.below(10) {
            0 => random_bytes(random),
            1..=5 => flawed_dictionary(random, mood).into_bytes(),
            _ => {
                let mut text = dictionary(random, mood).into_bytes();
                damage(random, &mut text);
                text
            }
        };
    }
    if random.percent(12) {
        return random.pick(&["", "", "", " ", "   "]).as_bytes().to_vec();
    }
    dictionary(random, mood).into_bytes()
}

/// A header for tidying: more often long, and more often about many features.
pub fn header_to_tidy(random: &mut Random, mood: &Mood) -> Vec<u8> {
    match random.below(20) {
        0 if mood.long > 4 || random.percent(40) => header_that_grows(random),
        1 => {
            let everything = Mood {
                features: (0..FEATURE_COUNT).collect(),
                ..mood.clone()
            };
            dictionary(random, &everything).into_bytes()
        }
        2 if mood.long > 4 && random.percent(30) => {
            let length = text_length(random);
            crowded_header(random, mood, length)
        }
        2..=4 => flawed_dictionary(random, mood).into_bytes(),
        5..=7 => header_of_doubles(random, mood).into_bytes(),
        _ => header(random, mood),
    }
}

/// Lists of expressions that differ by port or scheme only, or not even by that.
fn header_of_doubles(random: &mut Random, mood: &Mood) -> String {
    let mut members = Vec::new();
    for _ in 0..random.between(1, 3) {
        let origin = good_origin(random, mood);
        let first = expression_about(random, &origin);
        let mut items = vec![quoted(&first)];
        for _ in 0..random.between(1, 4) {
            let again = expression_again(random, &first);
            let again = maybe_mixed_case(random, &again);
            items.push(quoted(&again));
        }
        if random.percent(20) {
            items.insert(random.below(items.len() + 1), "self".to_string());
        }
        let name = feature_name(random, mood);
        members.push(format!("{name}=({})", items.join(" ")));
    }
    members.join(comma(random))
}

/// A header that takes little away.
pub fn calm_header(random: &mut Random, mood: &Mood) -> Vec<u8> {
    if random.percent(85) {
        return Vec::new();
    }
    let name = feature_name(random, mood);
    let value = random.word(&["*", "*", "(self *)", "self", "1", "(\"https:\" \"http:\")"]);
    format!("{name}={value}").into_bytes()
}

// ----------------------------------------------------------- attributes

/// An allow attribute that takes little away.
pub fn calm_allow(random: &mut Random, mood: &Mood) -> Vec<u8> {
    let mut pieces = Vec::new();
    for _ in 0..*random.pick(&[0, 0, 1, 2, 3]) {
        let name = feature_name(random, mood);
        pieces.push(format!(
            "{name}{}",
            random.word(&[" *", " *", " 'self' 'src'", ""])
        ));
    }
    pieces.join(";").into_bytes()
}

fn whitespace(random: &mut Random) -> &'static str {
    random.word(&[
        " ", " ", " ", " ", " ", " ", " ", "  ", "\t", "\n", "\r", "\x0c", " \t ", "\r\n",
    ])
}

/// Parts no words, though some think so.
const NO_WHITESPACE: &[&str] = &["\x0b", "\0", "\u{a0}", "\u{1f}", ",", "\u{85}"];

fn allow_word(random: &mut Random, mood: &Mood) -> Vec<u8> {
    match random.below(100) {
        0..=11 => b"*".to_vec(),
        12..=29 => maybe_mixed_case(random, "'self'").into_bytes(),
        30..=45 => maybe_mixed_case(random, "'src'").into_bytes(),
        46..=53 => maybe_mixed_case(random, "'none'").into_bytes(),
        54..=89 => expression(random, mood),
        90..=96 => random
            .pick(&[
                "self",
                "src",
                "none",
                "'*'",
                "'self",
                "self'",
                "''self''",
                "null",
                "\"self\"",
                "**",
                "*.",
                "'sel\u{17f}'",
                "'src',",
                "'",
                "''",
            ])
            .as_bytes()
            .to_vec(),
        _ => random_bytes(random),
    }
}

fn allow_piece(random: &mut Random, mood: &Mood) -> Vec<u8> {
    let mut piece = Vec::new();
    if random.percent(30) {
        piece.extend_from_slice(whitespace(random).as_bytes());
    }
    match random.below(100) {
        0..=3 => return piece,
        4..=8 => piece.extend_from_slice(unknown_key(random, mood).as_bytes()),
        9..=11 => {
            let name = feature_name(random, mood);
            let name = mixed_case(random, name);
            piece.extend_from_slice(name.as_bytes());
        }
        _ => piece.extend_from_slice(feature_name(random, mood).as_bytes()),
    }
    for _ in 0..*random.pick(&[0, 0, 1, 1, 1, 1, 2, 2, 3]) {
        if random.percent(2) {
            piece.extend_from_slice(random.pick(NO_WHITESPACE).as_bytes());
        } else {
            piece.extend_from_slice(whitespace(random).as_bytes());
        }
        piece.extend_from_slice(&allow_word(random, mood));
    }
    if random.percent(15) {
        piece.extend_from_slice(whitespace(random).as_bytes());
    }
    piece
}

fn allow_pieces(random: &mut Random, mood: &Mood) -> Vec<u8> {
    let count = *random.pick(&[1, 1, 2, 2, 3, 3, 4, 6]);
    let pieces: Vec<Vec<u8>> = (0..count).map(|_| allow_piece(random, mood)).collect();
    pieces.join(&b';')
}

pub fn allow(random: &mut Random, mood: &Mood) -> Vec<u8> {
    if random.permille(mood.long) {
        let length = text_length(random);
        if random.percent(25) {
            return crowded_allow(random, mood, length);
        }
        let mut text = allow_pieces(random, mood);
        let missing = length.saturating_sub(text.len());
        let filler = *random.pick(b"  ;;x\t");
        let padding = vec![filler; missing];
        if random.percent(50) {
            text.extend_from_slice(&padding);
            return text;
        }
        return [padding, text].concat();
    }
    if random.percent(22) {
        return Vec::new();
    }
    let mut text = allow_pieces(random, mood);
    if random.percent(mood.damage) {
        damage(random, &mut text);
    }
    text
}

/// An allow attribute of so many bytes with as many words or pieces as fit in;
/// what counts stands at the end or at the start.
fn crowded_allow(random: &mut Random, mood: &Mood, length: usize) -> Vec<u8> {
    let name = feature_name(random, mood);
    let (mut text, end) = match random.below(4) {
        0 => (allow_piece(random, mood), Vec::new()),
        1 => (name.as_bytes().to_vec(), allow_word(random, mood)),
        _ => (Vec::new(), allow_piece(random, mood)),
    };
    let words = !text.is_empty();
    for number in 0.. {
        let part = match (words, random.below(4)) {
            (true, 0) => " 'none'".to_string(),
            (true, 1) => format!(" https://{number}"),
            (true, _) => " x".to_string(),
            (false, 0) => format!("{name} *;"),
            (false, 1) => format!("{name} https://{number};"),
            (false, 2) => format!("{name} 'none';"),
            (false, _) => ";".to_string(),
        };
        if text.len() + part.len() + 1 + end.len() > length {
            break;
        }
        text.extend_from_slice(part.as_bytes());
    }
    text.resize(length.saturating_sub(end.len()).max(text.len() + 1), b' ');
    text.extend_from_slice(&end);
    text
}

/// An allow attribute with expressions about this origin for several features.
pub fn allow_about(random: &mut Random, origin: &str) -> Vec<u8> {
    let mut text = Vec::new();
    for _ in 0..random.between(2, 8) {
        if !text.is_empty() {
            text.extend_from_slice(random.word(&[";", "; ", " ;\n"]).as_bytes());
        }
        text.extend_from_slice(FEATURES[random.below(FEATURE_COUNT)].name.as_bytes());
        for _ in 0..*random.pick(&[1, 1, 1, 2, 2, 3]) {
            text.extend_from_slice(whitespace(random).as_bytes());
            text.extend_from_slice(expression_about(random, origin).as_bytes());
        }
    }
    text
}

/// An allow attribute for a frame with this sandbox attribute: mostly entries
/// for the ten features, with every kind of list.
pub fn allow_beside_sandbox(random: &mut Random, mood: &Mood, sandbox: &Sandbox) -> Vec<u8> {
    if random.percent(40) {
        return allow(random, mood);
    }
    let keywords = features_by_keyword(&sandbox.text);
    let with_keyword: Vec<usize> = (0..FEATURE_COUNT).filter(|&f| keywords[f]).collect();
    let mut pieces = Vec::new();
    for _ in 0..*random.pick(&[1, 1, 2, 2, 3, 5]) {
        let feature = if random.percent(12) {
            PLUGINS
        } else if !with_keyword.is_empty() && random.percent(40) {
            *random.pick(&with_keyword)
        } else {
            default_all_feature(random, mood)
        };
        let name = FEATURES[feature].name;
        let mut piece = if random.percent(4) {
            mixed_case(random, name).into_bytes()
        } else {
            name.as_bytes().to_vec()
        };
        let list = match random.below(14) {
            0..=2 => Vec::new(),
            3..=6 => b"*".to_vec(),
            7 => maybe_mixed_case(random, "'self'").into_bytes(),
            8 => maybe_mixed_case(random, "'src'").into_bytes(),
            9..=10 => maybe_mixed_case(random, "'none'").into_bytes(),
            11 => b"https:".to_vec(),
            12 => expression(random, mood),
            _ => allow_word(random, mood),
        };
        if !list.is_empty() || random.percent(20) {
            piece.extend_from_slice(whitespace(random).as_bytes());
            piece.extend_from_slice(&list);
        }
        pieces.push(piece);
    }
    let mut text = pieces.join(random.word(&[";", ";", "; ", ";\n", " ;"]).as_bytes());
    if random.percent(mood.damage / 2) {
        damage(random, &mut text);
    }
    text
}

/// A feature's keyword, in lower, upper or odd case.
fn keyword(random: &mut Random, feature: usize) -> String {
    let keyword = format!("allow-{}", FEATURES[feature].name);
    match random.below(10) {
        0..=5 => keyword,
        6..=7 => keyword.to_ascii_uppercase(),
        _ => mixed_case(random, &keyword),
    }
}

/// Words of sandbox attributes that are no feature's keyword.
const OTHER_SANDBOX_WORDS: &[&str] = &[
    "allow-plugins",
    "allow-plugins",
    "Allow-Plugins",
    "ALLOW-PLUGINS",
    "allow-camera",
    "allow-fullscreen",
    "allow-payment",
    "allow-downloads",
    "allow-downloads-without",
    "allow-popups-to-escape-sandbox",
    "allow-top-navigation-by-user-activation",
    "allow-orientation",
    "allow-pointer",
    "allow-top",
    "allow-",
    "allow",
    "allow-*",
    "allow-all",
    "*",
    "-",
];

/// Mostly no keyword, but close to one.
fn near_keyword(random: &mut Random, mood: &Mood) -> String {
    let feature = default_all_feature(random, mood);
    let name = FEATURES[feature].name;
    let attached = *random.pick(&["\x0b", "\0", ";", ",", "\u{a0}", "=", "'", "\"", "."]);
    match random.below(14) {
        0..=2 => random.pick(OTHER_SANDBOX_WORDS).to_string(),
        3 => format!(
            "allow-{name}{}",
            random.pick(&["2", "s", "x", "-", "_", "*"])
        ),
        4 => format!("allow-{}", &name[..name.len() - 1]),
        5 => format!("allow-{}", &name[1..]),
        6 => format!(
            "{}{name}",
            random.pick(&[
                "allow_",
                "allow",
                "allow--",
                "allow ",
                "allow-\x0b",
                "deny-",
                "llow-"
            ])
        ),
        7 => name.to_string(),
        8 => format!("{}allow-{name}", random.pick(&["x", "-", "allow-", "dis"])),
        9 => format!("allow-{name}{attached}"),
        10 => format!("{attached}allow-{name}"),
        // Two that are not parted.
        11 => {
            let other = default_all_feature(random, mood);
            let other = keyword(random, other);
            format!("allow-{name}{}{other}", random.pick(&["", attached]))
        }
        12 if name.contains('-') => {
            let hyphen = *random.pick(&["_", "", " ", "--"]);
            format!("allow-{}", name.replacen('-', hyphen, 1))
        }
        // Letters that only Unicode folds to these.
        _ => format!("allow-{name}")
            .replacen('s', "\u{17f}", 1)
            .replacen('k', "\u{212a}", 1),
    }
}

const NEAR_SAME_ORIGIN: &[&str] = &[
    "allow-same-originx",
    "xallow-same-origin",
    "allow-same-origi",
    "allow_same_origin",
    "allow-same-origin,",
    "allow-\u{17f}ame-origin",
    "'allow-same-origin'",
    "allow-same-origin;",
];

/// The words of a sandbox attribute but `allow-same-origin`: none, a few, or
/// most keywords.
fn sandbox_words(random: &mut Random, mood: &Mood) -> Vec<String> {
    let mut words: Vec<String> = Vec::new();
    match random.below(10) {
        0..=1 => {}
        2..=4 => {
            let mut features = default_all_features();
            for index in 0..features.len() {
                let other = random.between(index, features.len() - 1);
                features.swap(index, other);
            }
            features.truncate(random.between(5, features.len()));
            for feature in features {
                words.push(keyword(random, feature));
            }
        }
        _ => {
            for _ in 0..*random.pick(&[1, 1, 1, 2, 2, 3, 4]) {
                let word = match random.below(20) {
                    0..=10 => {
                        let feature = default_all_feature(random, mood);
                        keyword(random, feature)
                    }
                    11..=15 => near_keyword(random, mood),
                    16..=17 => random.pick(NEAR_SAME_ORIGIN).to_string(),
                    // One of the earlier again.
                    _ if !words.is_empty() => {
                        let earlier = random.pick(&words).clone();
                        maybe_mixed_case(random, &earlier)
                    }
                    _ => random.pick(OTHER_SANDBOX_WORDS).to_string(),
                };
                words.push(word);
            }
        }
    }
    words
}

/// A sandbox attribute.
#[derive(Clone, Debug)]
pub struct Sandbox {
    pub text: Vec<u8>,
    /// Whether it is meant to hold `allow-same-origin`.
    pub same_origin: bool,
}

pub fn sandbox(random: &mut Random, mood: &Mood) -> Sandbox {
    let same_origin = random.percent(35);
    let mut words = sandbox_words(random, mood);
    if same_origin {
        let place = random.below(words.len() + 1);
        let word = if random.percent(50) {
            mixed_case(random, "allow-same-origin")
        } else {
            "allow-same-origin".to_string()
        };
        words.insert(place, word);
    }
    let mut text = Vec::new();
    for (index, word) in words.iter().enumerate() {
        if index > 0 || random.percent(10) {
            if random.percent(4) {
                text.extend_from_slice(random.pick(NO_WHITESPACE).as_bytes());
            } else {
                text.extend_from_slice(whitespace(random).as_bytes());
            }
        }
        text.extend_from_slice(word.as_bytes());
    }
    if random.percent(10) {
        text.extend_from_slice(whitespace(random).as_bytes());
    }
    if random.percent(mood.damage / 3) {
        damage(random, &mut text);
    }
    // Sandbox attributes are rarer than the other texts.
    if random.permille(4 * mood.long) {
        let missing = text_length(random).saturating_sub(text.len());
        let padding = sandbox_padding(random, mood, missing);
        if random.percent(50) {
            text.extend_from_slice(&padding);
        } else {
            text = [padding, text].concat();
        }
    }
    Sandbox { text, same_origin }
}

/// So many bytes beside what counts: one byte over and over, or one word.
fn sandbox_padding(random: &mut Random, mood: &Mood, length: usize) -> Vec<u8> {
    if random.percent(70) {
        return vec![*random.pick(b"  \nx"); length];
    }
    let word = if random.percent(50) {
        let feature = default_all_feature(random, mood);
        keyword(random, feature)
    } else {
        near_keyword(random, mood)
    };
    let word = format!("{}{word} ", whitespace(random));
    word.bytes().cycle().take(length).collect()
}

#[cfg(test)]
mod tests {
    use super::*;
    use crate::fields::{parse_dictionary, BareItem, MemberValue};
    use crate::header::{DeclaredList, DeclaredPolicy};
    use crate::origins::{Origin, OriginText};
    use crate::tidy::tidied_form;

    fn many(mut test: impl FnMut(&mut Random, &Mood)) {
        for seed in 0..3000 {
            let mut random = Random::new(seed);
            let mood = Mood::new(&mut random);
            test(&mut random, &mood);
        }
    }

    #[test]
    fn the_grammar_makes_dictionaries() {
        many(|random, mood| {
            let text = dictionary(random, mood);
            assert!(parse_dictionary(text.as_bytes()).is_ok(), "{text}");
        });
    }

    #[test]
    fn flaws_are_mostly_flaws() {
        let mut malformed = 0;
        many(|random, mood| {
            let text = flawed_dictionary(random, mood);
            malformed += usize::from(parse_dictionary(text.as_bytes()).is_err());
        });
        assert!((2700..3000).contains(&malformed), "{malformed}");
    }

    #[test]
    fn good_origins_are_good() {
        many(|random, mood| {
            let text = good_origin(random, mood);
            let parsed = OriginText::parse(text.as_bytes());
            assert!(matches!(parsed, Some(OriginText::Tuple(_))), "{text}");
        });
    }

    #[test]
    fn expressions_about_an_origin() {
        let mut answers = [0; 2];
        many(|random, mood| {
            let text = origin_of_either_scheme(random, mood);
            let parsed = OriginText::parse(text.as_bytes());
            let Some(OriginText::Tuple(tuple)) = parsed else {
                panic!("{text}");
            };
            let about = expression_about(random, &text);
            let expression = SourceExpression::parse(about.as_bytes()).expect("an expression");
            answers[usize::from(expression.admits(&Origin::Tuple(tuple)))] += 1;
            let again = expression_again(random, &about);
            assert!(
                SourceExpression::parse(again.as_bytes()).is_some(),
                "{again}"
            );
        });
        assert!(answers.iter().all(|&count| count > 1000), "{answers:?}");
    }

    #[test]
    fn tidied_forms_at_the_limit() {
        let mut lengths = [0; 3];
        many(|random, _| {
            let header = header_that_grows(random);
            let policy = DeclaredPolicy::parse(&header).expect("a dictionary");
            assert!(header.len() <= MAX_TEXT_BYTES);
            let length = tidied_form(&policy).len();
            if let Some(count) = length
                .checked_sub(MAX_TIDIED_BYTES - 1)
                .and_then(|index| lengths.get_mut(index))
            {
                *count += 1;
            }
        });
        assert!(lengths.iter().all(|&count| count > 100), "{lengths:?}");
    }

    /// The expressions of a member's value, doubles included.
    fn expressions_of(value: &MemberValue) -> Vec<SourceExpression> {
        let items: Vec<&BareItem> = match value {
            MemberValue::Item(item) => vec![item],
            MemberValue::InnerList(items) => items.iter().map(|i| &i.value).collect(),
        };
        let parse = |item: &BareItem| match item {
            BareItem::String(text) => SourceExpression::parse(text),
            _ => None,
        };
        items.into_iter().filter_map(parse).collect()
    }

    /// Demand 2 over R-3: "a tidied header, read again, declares the same
    /// policy and tidies to the same bytes".
    #[test]
    fn a_tidied_header_read_again() {
        let (mut answers, mut ports) = ([0; 2], 0);
        many(|random, mood| {
            let header = header_to_tidy(random, mood);
            let Ok(policy) = DeclaredPolicy::parse(&header) else {
                return;
            };
            let tidied = tidied_form(&policy);
            let again = DeclaredPolicy::parse(&tidied).expect("a dictionary");
            assert_eq!(again, policy);
            assert_eq!(tidied_form(&again), tidied);
            ports += usize::from(tidied.windows(4).any(|w| w == b":80\""));
            let own = Origin::FreshOpaque;
            let lists = again.settle(&own);
            // As the header was written, before anything was tidied away.
            for member in parse_dictionary(&header).expect("a dictionary") {
                let Some(feature) = crate::features::feature_by_name(&member.key) else {
                    continue;
                };
                let expressions = expressions_of(&member.value);
                let all = policy.lists[feature] == Some(DeclaredList::All);
                for _ in 0..20 {
                    let text = if expressions.is_empty() || random.percent(20) {
                        good_origin(random, mood).into_bytes()
                    } else {
                        let expression = random.pick(&expressions).clone();
                        origin_near(random, &expression)
                    };
                    let Some(OriginText::Tuple(tuple)) = OriginText::parse(&text) else {
                        panic!("{}", text.escape_ascii());
                    };
                    let origin = Origin::Tuple(tuple);
                    let before = all || expressions.iter().any(|e| e.admits(&origin));
                    let after = lists[feature].as_ref().is_some_and(|l| l.admits(&origin));
                    assert_eq!(before, after, "{}", header.escape_ascii());
                    answers[usize::from(after)] += 1;
                }
            }
        });
        assert!(answers.iter().all(|&count| count > 5000), "{answers:?}");
        assert!(ports > 100, "{ports}");
    }

    #[test]
    fn sandbox_texts_have_every_keyword() {
        let mut stands = [0; FEATURE_COUNT];
        let mut none = 0;
        many(|random, mood| {
            let keywords = features_by_keyword(&sandbox(random, mood).text);
            for (count, stands) in stands.iter_mut().zip(keywords) {
                *count += usize::from(stands);
            }
            none += usize::from(!keywords.contains(&true));
        });
        for (feature, count) in stands.iter().enumerate() {
            let has_keyword = default_is_all(feature) && feature != PLUGINS;
            assert_eq!(*count > 300, has_keyword, "{}", FEATURES[feature].name);
        }
        assert!((500..1800).contains(&none), "{none}");
    }

    #[test]
    fn near_keywords_are_mostly_none() {
        let mut keywords = 0;
        many(|random, mood| {
            let word = near_keyword(random, mood);
            keywords += usize::from(features_by_keyword(word.as_bytes()).contains(&true));
        });
        assert!(keywords < 300, "{keywords}");
    }

    #[test]
    fn padded_headers_have_their_length() {
        many(|random, mood| {
            let header = padded_header(random, mood, MAX_TEXT_BYTES);
            assert_eq!(header.len(), MAX_TEXT_BYTES);
        });
    }

    #[test]
    fn crowded_texts_have_their_length() {
        many(|random, mood| {
            let header = crowded_header(random, mood, MAX_TEXT_BYTES);
            assert_eq!(header.len(), MAX_TEXT_BYTES);
            assert!(
                parse_dictionary(&header).is_ok(),
                "{}",
                header.escape_ascii()
            );
            let allow = crowded_allow(random, mood, MAX_TEXT_BYTES);
            assert_eq!(allow.len(), MAX_TEXT_BYTES);
        });
    }
}
