//! R-3's cases: which kinds of expressions met which kinds of origins, where
//! the answer hung on them, and what tidying had to do with their ports.

use std::collections::BTreeMap;

use super::model::{Known, Model};
use crate::allowlist::Allowlist;
use crate::attributes::ContainerPolicy;
use crate::expressions::{host_admits, HostPart, PortPart, SourceExpression};
use crate::features::{feature_by_name, FEATURE_COUNT};
use crate::fields::{parse_dictionary, BareItem, MemberValue};
use crate::origins::{decimal_port, Origin, Scheme, TupleOrigin};
use crate::replay::Call;

/// Where the expression stands, and what is asked.
#[derive(Clone, Copy, Debug, PartialEq, Eq, PartialOrd, Ord)]
enum Text {
    Header,
    AllowInLoad,
    AllowInForecast,
}

const TEXTS: [Text; 3] = [Text::Header, Text::AllowInLoad, Text::AllowInForecast];

#[derive(Clone, Debug, Default)]
pub struct SchemeCases {
    met: BTreeMap<(Text, String), u64>,
    tidied: BTreeMap<&'static str, u64>,
}

/// Each is wanted in headers, in loads by allow and in forecasts by allow. `a`
/// stands for any host, 1 for a port that is no default.
const MET: [&str; 40] = [
    "http://a, http at 80",
    "http://a, http at 443",
    "http://a, https at 443",
    "http://a, https at 80",
    "http://a, https at 1",
    "http://a:80, http at 80",
    "http://a:80, http at 443",
    "http://a:80, https at 443",
    "http://a:80, https at 80",
    "http://a:443, http at 80",
    "http://a:443, http at 443",
    "http://a:443, https at 443",
    "http://a:443, https at 80",
    "http://a:1, http at 1",
    "http://a:1, https at 1",
    "http://a:*, https at 443",
    "http://a:*, https at 80",
    "http://a:*, https at 1",
    "https://a, http at 80",
    "https://a, http at 443",
    "https://a, https at 443",
    "https://a:80, http at 80",
    "https://a:80, https at 80",
    "https://a:*, http at 80",
    "http://*.a, https at 443",
    "http://*.a, https at 80",
    "http://*.a:80, https at 443",
    "http://*.a:80, https at 80",
    "http://*.a:443, https at 443",
    "https://*.a, http at 80",
    "http://*, https at 443",
    "http://*, https at 80",
    "http://*:80, https at 443",
    "http://*:*, https at 443",
    "https://*, http at 80",
    "http:, http at 80",
    "http:, https at 443",
    "http:, https at 80",
    "http:, https at 1",
    "https:, http at 80",
];

const TIDIED: [&str; 11] = [
    "http with :80",
    "http with :80, leading zeros",
    "http with :443",
    "https with :443",
    "https with :443, leading zeros",
    "https with :80",
    "http without a port and with :80",
    "http with :80 twice",
    "http with :80, * or *. as host",
    "https without a port and with :443",
    "http and https, else alike",
];

impl SchemeCases {
    /// Takes note of a call and its answer; the model is as before the call.
    pub fn observe(&mut self, model: &Model, line: &[u8], answer: &[u8]) {
        let bits = answer
            .strip_prefix(b"features ")
            .and_then(super::model::parse_number);
        match (Call::parse(line), answer, bits) {
            (
                Some(Call::Ask {
                    serial,
                    feature,
                    origin,
                }),
                b"Enabled" | b"Disabled",
                _,
            ) => {
                let Some(document) = model.get(serial) else {
                    return;
                };
                let origin = model.origin_of(&origin, Some(serial));
                if let Some(list) = &document.declared[feature as usize] {
                    // A top-level document inherits Enabled.
                    let open = document.depth == 0;
                    self.note(Text::Header, list, &origin, answer == b"Enabled", open);
                }
            }
            (Some(Call::Enabled { serial }), _, Some(bits)) => {
                let document = model.get(serial);
                let container = document.and_then(|d| model.get(d.container?));
                if let (Some(document), Some(container)) = (document, container) {
                    // The document's own header must not decide.
                    let open_header = |f: usize| lets_all_by(document, f);
                    let allow = &document.allow;
                    let origin = &document.origin;
                    self.note_frame(
                        Text::AllowInLoad,
                        container,
                        allow,
                        origin,
                        bits,
                        open_header,
                    );
                }
            }
            (Some(Call::Forecast { element }), _, Some(bits)) => {
                if let Some(container) = model.get(element.container) {
                    // In a sandboxed container, whose origin is opaque, the
                    // declared origin isn't the one of src.
                    if matches!(container.origin, Origin::FreshOpaque) {
                        return;
                    }
                    let origin = model.origin_of(&element.src, Some(element.container));
                    let allow = model.allow_of(&element);
                    self.note_frame(
                        Text::AllowInForecast,
                        container,
                        &allow,
                        &origin,
                        bits,
                        |_| true,
                    );
                }
            }
            (Some(Call::Tidy { header, .. }), _, _) if answer.starts_with(b"tidied") => {
                self.note_tidied(&header);
            }
            _ => {}
        }
    }

    fn note_frame(
        &mut self,
        text: Text,
        container: &Known,
        allow: &ContainerPolicy,
        origin: &Origin,
        bits: u32,
        counts: impl Fn(usize) -> bool,
    ) {
        for feature in (0..FEATURE_COUNT).filter(|&f| counts(f)) {
            if let Some(list) = &allow[feature] {
                let open = container.depth == 0 && lets_all_by(container, feature);
                self.note(text, list, origin, bits >> feature & 1 == 1, open);
            }
        }
    }

    /// Counts each expression of the list on which the answer hangs: its host
    /// part would do, and nothing else in the list admits the origin. A
    /// Disabled counts only where the list decides, if it is open.
    fn note(&mut self, text: Text, list: &Allowlist, origin: &Origin, enabled: bool, open: bool) {
        let (
            Allowlist::Listed {
                origins,
                expressions,
            },
            Origin::Tuple(tuple),
        ) = (list, origin)
        else {
            return;
        };
        if origins.iter().any(|o| o.same_origin(origin)) {
            return;
        }
        for (index, expression) in expressions.iter().enumerate() {
            let alone = (expressions.iter().enumerate())
                .all(|(other, e)| other == index || !e.admits(origin));
            let about = match expression {
                SourceExpression::SchemeOnly(_) => true,
                SourceExpression::Full { host, .. } => host_admits(host, &tuple.host),
            };
            let hangs = if expression.admits(origin) {
                enabled
            } else {
                !enabled && open
            };
            if alone && about && hangs {
                let case = case_of(expression, tuple);
                *self.met.entry((text, case)).or_default() += 1;
            }
        }
    }

    fn note_tidied(&mut self, header: &[u8]) {
        for member in parse_dictionary(header).unwrap_or_default() {
            let items = match member.value {
                MemberValue::Item(item) => vec![item],
                MemberValue::InnerList(items) => items.into_iter().map(|i| i.value).collect(),
            };
            let all = items
                .iter()
                .any(|i| matches!(i, BareItem::Token(token) if token == b"*"));
            if feature_by_name(&member.key).is_none() || all {
                continue;
            }
            let written: Vec<Written> = items.iter().filter_map(Written::of_item).collect();
            for case in tidied_cases(&written) {
                *self.tidied.entry(case).or_default() += 1;
            }
        }
    }

    fn count(&self, text: Text, case: &str) -> u64 {
        self.met
            .get(&(text, case.to_string()))
            .copied()
            .unwrap_or(0)
    }

    pub fn print(&self) {
        for case in MET {
            let [header, load, forecast] = TEXTS.map(|text| self.count(text, case));
            println!("  {case}: header {header}, allow in loads {load}, in forecasts {forecast}");
        }
        for (case, count) in &self.tidied {
            println!("  tidied, {case}: {count}");
        }
    }

    /// What of R-3 is too rare.
    pub fn lacks(&self, calls: u64) -> Vec<String> {
        let mut lacks = Vec::new();
        let mut want = |name: String, count: u64, wanted: u64| {
            if count < wanted {
                lacks.push(format!("{name}: {count}, wanted {wanted}"));
            }
        };
        for text in TEXTS {
            for case in MET {
                // 50 over a million calls.
                let wanted = (calls / 20_000).max(1);
                want(format!("{text:?}, {case}"), self.count(text, case), wanted);
            }
        }
        for case in TIDIED {
            let count = self.tidied.get(case).copied().unwrap_or(0);
            want(format!("tidied, {case}"), count, (calls / 1000).max(1));
        }
        lacks
    }
}

/// Whether the document's header leaves the feature to every origin.
fn lets_all_by(document: &Known, feature: usize) -> bool {
    matches!(&document.declared[feature], None | Some(Allowlist::All))
}

/// Both by their kinds. An expression's port that is no default is 1 if it is
/// the origin's, else 2.
fn case_of(expression: &SourceExpression, origin: &TupleOrigin) -> String {
    let written = match expression {
        SourceExpression::SchemeOnly(scheme) => format!("{}:", scheme.name()),
        SourceExpression::Full { scheme, host, port } => {
            let host = match host {
                HostPart::Any => "*",
                HostPart::Exact(_) => "a",
                HostPart::Beneath(_) => "*.a",
            };
            let port = match port {
                PortPart::Default => "",
                PortPart::Any => ":*",
                PortPart::One(80) => ":80",
                PortPart::One(443) => ":443",
                PortPart::One(port) if *port == origin.port => ":1",
                PortPart::One(_) => ":2",
            };
            format!("{}://{host}{port}", scheme.name())
        }
    };
    let port = match origin.port {
        80 => "80",
        443 => "443",
        _ => "1",
    };
    format!("{written}, {} at {port}", origin.scheme.name())
}

/// An expression as the header has it.
#[derive(Clone, Debug, PartialEq, Eq)]
struct Written {
    scheme: Scheme,
    host: HostPart,
    /// Nothing if none is written, or `:*`.
    port: Option<u16>,
    any_port: bool,
    leading_zeros: bool,
}

impl Written {
    fn of_item(item: &BareItem) -> Option<Self> {
        let BareItem::String(text) = item else {
            return None;
        };
        let SourceExpression::Full { scheme, host, .. } = SourceExpression::parse(text)? else {
            return None;
        };
        let end = text.rsplit(|&b| b == b':').next()?;
        Some(Written {
            scheme,
            host,
            port: decimal_port(end),
            any_port: end == b"*",
            leading_zeros: end.len() > 1 && end.starts_with(b"0"),
        })
    }

    fn is(&self, scheme: Scheme, port: Option<u16>) -> bool {
        self.scheme == scheme && self.port == port && !self.any_port
    }
}

/// The cases of R-3 that a list has for tidying.
fn tidied_cases(list: &[Written]) -> Vec<&'static str> {
    let mut cases = Vec::new();
    for (index, one) in list.iter().enumerate() {
        let before = || list[..index].iter().filter(|e| e.host == one.host);
        let beside = || list.iter().filter(|e| e.host == one.host);
        if one.is(Scheme::Http, Some(80)) {
            cases.push("http with :80");
            if one.leading_zeros {
                cases.push("http with :80, leading zeros");
            }
            if !matches!(one.host, HostPart::Exact(_)) {
                cases.push("http with :80, * or *. as host");
            }
            if before().any(|e| e.is(Scheme::Http, Some(80))) {
                cases.push("http with :80 twice");
            }
            if beside().any(|e| e.is(Scheme::Http, None)) {
                cases.push("http without a port and with :80");
            }
        }
        if one.is(Scheme::Http, Some(443)) {
            cases.push("http with :443");
        }
        if one.is(Scheme::Https, Some(443)) {
            cases.push("https with :443");
            if one.leading_zeros {
                cases.push("https with :443, leading zeros");
            }
            if beside().any(|e| e.is(Scheme::Https, None)) {
                cases.push("https without a port and with :443");
            }
        }
        if one.is(Scheme::Https, Some(80)) {
            cases.push("https with :80");
        }
        let alike = |e: &Written| e.port == one.port && e.any_port == one.any_port;
        if before().any(|e| e.scheme != one.scheme && alike(e)) {
            cases.push("http and https, else alike");
        }
    }
    cases
}

#[cfg(test)]
mod tests {
    use super::*;
    use crate::origins::OriginText;

    #[test]
    fn kinds_of_cases() {
        for (expression, origin, case) in [
            ("HTTP://b", "https://b", "http://a, https at 443"),
            ("http://b:080", "https://b:80", "http://a:80, https at 80"),
            ("https://b:443", "http://b:443", "https://a, http at 443"),
            (
                "http://*.b:443",
                "https://x.b",
                "http://*.a:443, https at 443",
            ),
            ("http://*:*", "https://b", "http://*:*, https at 443"),
            ("http://b:8080", "https://b:8080", "http://a:1, https at 1"),
            ("http://b:8080", "https://b:8081", "http://a:2, https at 1"),
            ("http:", "http://b", "http:, http at 80"),
        ] {
            let expression = SourceExpression::parse(expression.as_bytes()).expect("good");
            let Some(OriginText::Tuple(origin)) = OriginText::parse(origin.as_bytes()) else {
                panic!("{origin}");
            };
            assert_eq!(case_of(&expression, &origin), case);
        }
    }

    #[test]
    fn cases_of_tidying() {
        for (header, cases) in [
            ("camera=(\"http://a\" \"http:\" junk self)", vec![]),
            ("camera=(\"http://a:80\" *)", vec![]),
            ("foo=\"http://a:80\"", vec![]),
            ("camera=\"HTTP://a:80\"", vec!["http with :80"]),
            (
                "camera=(\"http://a\" \"http://a:80\")",
                vec!["http with :80", "http without a port and with :80"],
            ),
            (
                "camera=(\"https://a:443\" \"https://a\")",
                vec!["https with :443", "https without a port and with :443"],
            ),
            (
                "camera=(\"https://a:*\" \"http://a:*\")",
                vec!["http and https, else alike"],
            ),
        ] {
            let mut noted = SchemeCases::default();
            noted.note_tidied(header.as_bytes());
            let noted: Vec<&str> = noted.tidied.into_keys().collect();
            assert_eq!(noted, cases, "{header}");
        }
    }

    #[test]
    fn counted_where_the_answer_hangs_on_it() {
        let count = |header: &str, origin: &str, answer: &str| {
            let mut model = Model::default();
            let top = format!("top\thttps://own\t{header}");
            model.observe(top.as_bytes(), b"loaded 1", false);
            let mut cases = SchemeCases::default();
            let ask = format!("ask\t1\t0\t{origin}");
            cases.observe(&model, ask.as_bytes(), answer.as_bytes());
            let cases = cases.met.into_keys().map(|(_, case)| case);
            cases.collect::<Vec<String>>()
        };
        let none: Vec<String> = Vec::new();
        let one = r#"camera=("http://b")"#;
        assert_eq!(
            count(one, "https://b", "Enabled"),
            ["http://a, https at 443"]
        );
        assert_eq!(
            count(one, "https://b:80", "Disabled"),
            ["http://a, https at 80"]
        );
        // Another host, another list, something else that admits it.
        assert_eq!(count(one, "https://c", "Disabled"), none);
        assert_eq!(count("camera=*", "https://b", "Enabled"), none);
        let two = r#"camera=("http://b" "https:")"#;
        assert_eq!(count(two, "https://b", "Enabled"), none);
        let own = r#"camera=("http://own" self)"#;
        assert_eq!(count(own, "", "Enabled"), none);
    }
}
