//! Counts of what the sessions reached, and whether they bite.

use std::collections::BTreeMap;

use super::model::{field, parse_number, Known, Model, SandboxedFrame};
use super::schemes::SchemeCases;
use super::sizes::SizeCases;
use crate::features::{default_is_all, FEATURES, FEATURE_COUNT, PLUGINS};

#[derive(Clone, Debug, Default)]
pub struct Tally {
    pub calls: u64,
    kinds: BTreeMap<String, u64>,
    calls_by_name: BTreeMap<String, u64>,
    refusals_by_call: BTreeMap<String, u64>,
    documents_by_depth: BTreeMap<usize, u64>,
    deep_enabled: u64,
    deep_disabled: u64,
    /// By kind of call and case of R-1: how often one of the ten features was
    /// Enabled and Disabled.
    sandbox_cases: BTreeMap<(Asked, &'static str), Decided>,
    /// How often a feature was Enabled by its keyword alone.
    opened_by_keyword: [u64; FEATURE_COUNT],
    /// Numbers of a frame with a sandbox attribute that have some of the ten
    /// features and lack some.
    some_of_ten: BTreeMap<Asked, u64>,
    /// R-3's cases.
    schemes: SchemeCases,
    /// R-4's cases.
    sizes: SizeCases,
}

/// Whether an answer is about a loaded document or is a forecast.
#[derive(Clone, Copy, Debug, PartialEq, Eq, PartialOrd, Ord)]
enum Asked {
    Load,
    Forecast,
}

#[derive(Clone, Copy, Debug, Default)]
struct Decided {
    enabled: u64,
    disabled: u64,
}

/// R-1's cases, and whether Enabled can occur there. Each is wanted for loaded
/// documents and for forecasts.
const SANDBOX_CASES: [(&str, bool); 10] = [
    ("own attribute, by keyword", true),
    ("own attribute, by allow entry", true),
    ("own attribute, keyword and allow entry", true),
    ("own attribute, neither", false),
    ("own attribute, plugins named by allow", false),
    ("own attribute, plugins not named", false),
    (
        "own attribute with allow-same-origin, keyword or entry",
        true,
    ),
    ("own attribute beneath another, keyword or entry", true),
    ("no attribute, one level beneath one", true),
    ("no attribute, two levels or more beneath one", true),
];

/// The kinds of answers that must all occur. (7 would need more loads than a
/// session can make.)
const REQUIRED: [&str; 17] = [
    "loaded",
    "loaded malformed",
    "unloaded",
    "Enabled",
    "Disabled",
    "features",
    "beneath",
    "tidied",
    "bad line",
    "refused 1",
    "refused 2",
    "refused 3",
    "refused 4",
    "refused 5",
    "refused 6",
    "refused 8",
    "refused 9",
];

/// Questions about documents at this depth or more are judged apart.
const DEEP: usize = 2;

impl Tally {
    /// Takes note of a call and its answer; the model is as before the call.
    pub fn observe(&mut self, model: &Model, line: &[u8], answer: &[u8]) {
        self.calls += 1;
        let kind = kind_of(answer);
        if let Some(count) = self.kinds.get_mut(kind.as_str()) {
            *count += 1;
        } else {
            self.kinds.insert(kind.clone(), 1);
        }
        if kind == "bad line" {
            return;
        }
        self.schemes.observe(model, line, answer);
        self.sizes.observe(model, line, answer);
        let name = String::from_utf8_lossy(field(line, 0)).into_owned();
        if kind.starts_with("refused") {
            let refused = format!("{name} {kind}");
            *self.refusals_by_call.entry(refused).or_default() += 1;
        }
        match name.as_str() {
            "ask" => {
                let depth = parse_number(field(line, 1))
                    .and_then(|serial| model.get(serial))
                    .map_or(0, |document| document.depth);
                if depth >= DEEP && kind == "Enabled" {
                    self.deep_enabled += 1;
                } else if depth >= DEEP && kind == "Disabled" {
                    self.deep_disabled += 1;
                }
                self.observe_ask(model, line, &kind);
            }
            "enabled" if kind == "features" => self.observe_enabled(model, line, answer),
            "forecast" if kind == "features" => self.observe_forecast(model, line, answer),
            "top" | "frame" if kind.starts_with("loaded") => {
                let depth = parse_number(field(line, 1))
                    .filter(|_| name == "frame")
                    .and_then(|serial| model.get(serial))
                    .map_or(0, |container| container.depth + 1);
                *self.documents_by_depth.entry(depth).or_default() += 1;
            }
            _ => {}
        }
        *self.calls_by_name.entry(name).or_default() += 1;
    }

    // -------------------------------------------------------------

    fn observe_ask(&mut self, model: &Model, line: &[u8], kind: &str) {
        let document = parse_number(field(line, 1)).and_then(|serial| model.get(serial));
        let feature = parse_number(field(line, 2)).map(|feature| feature as usize);
        if let (Some(document), Some(feature), "Enabled" | "Disabled") = (document, feature, kind) {
            let place = Place::of_document(document);
            self.observe_feature(Asked::Load, place, feature, kind == "Enabled");
        }
    }

    fn observe_enabled(&mut self, model: &Model, line: &[u8], answer: &[u8]) {
        let document = parse_number(field(line, 1)).and_then(|serial| model.get(serial));
        if let Some(document) = document {
            self.observe_number(Asked::Load, Place::of_document(document), answer);
        }
    }

    fn observe_forecast(&mut self, model: &Model, line: &[u8], answer: &[u8]) {
        let place = Place {
            own: SandboxedFrame::of_line(line),
            levels: parse_number(field(line, 1)).and_then(|c| model.levels_beneath_sandbox(c)),
        };
        self.observe_number(Asked::Forecast, place, answer);
    }

    /// Each of the ten features in a number.
    fn observe_number(&mut self, asked: Asked, place: Place, answer: &[u8]) {
        let Some(bits) = answer.strip_prefix(b"features ").and_then(parse_number) else {
            return;
        };
        let has = |feature: usize| bits >> feature & 1 == 1;
        let mut ten = (0..FEATURE_COUNT).filter(|&f| default_is_all(f));
        if place.own.is_some() && ten.clone().any(has) && !ten.all(has) {
            *self.some_of_ten.entry(asked).or_default() += 1;
        }
        for feature in 0..FEATURE_COUNT {
            self.observe_feature(asked, place, feature, has(feature));
        }
    }

    fn observe_feature(&mut self, asked: Asked, place: Place, feature: usize, enabled: bool) {
        if feature >= FEATURE_COUNT || !default_is_all(feature) {
            return;
        }
        for case in place.cases(feature) {
            let decided = self.sandbox_cases.entry((asked, case)).or_default();
            if enabled {
                decided.enabled += 1;
            } else {
                decided.disabled += 1;
            }
        }
        let by_keyword = |own: SandboxedFrame| own.keywords[feature] && !own.named[feature];
        if enabled && place.own.is_some_and(by_keyword) {
            self.opened_by_keyword[feature] += 1;
        }
    }

    /// What of R-1 is too rare.
    fn sandbox_lacks(&self, wanted: u64) -> Vec<String> {
        let mut lacks = Vec::new();
        let mut want = |name: String, count: u64| {
            if count < wanted {
                lacks.push(format!("{name}: {count}, wanted {wanted}"));
            }
        };
        for asked in [Asked::Load, Asked::Forecast] {
            for (case, can_be_enabled) in SANDBOX_CASES {
                let key = (asked, case);
                let decided = self.sandbox_cases.get(&key).copied().unwrap_or_default();
                want(format!("{asked:?}, {case}, Disabled"), decided.disabled);
                if can_be_enabled {
                    want(format!("{asked:?}, {case}, Enabled"), decided.enabled);
                }
            }
            let count = self.some_of_ten.get(&asked).copied().unwrap_or(0);
            want(format!("{asked:?}, sandbox with some of the ten"), count);
        }
        for feature in (0..FEATURE_COUNT).filter(|&f| default_is_all(f) && f != PLUGINS) {
            let name = FEATURES[feature].name;
            let count = self.opened_by_keyword[feature];
            want(format!("Enabled by allow-{name}"), count);
        }
        lacks
    }

    pub fn print(&self) {
        println!("calls {}", self.calls);
        for (name, count) in &self.calls_by_name {
            println!("  call {name}: {count}");
        }
        for (kind, count) in &self.kinds {
            println!("  answer {kind}: {count}");
        }
        for (refused, count) in &self.refusals_by_call {
            println!("  {refused}: {count}");
        }
        for (depth, count) in &self.documents_by_depth {
            println!("  documents loaded at depth {depth}: {count}");
        }
        println!(
            "  questions at depth {DEEP} or more: Enabled {}, Disabled {}",
            self.deep_enabled, self.deep_disabled
        );
        for ((asked, case), decided) in &self.sandbox_cases {
            println!(
                "  {asked:?}, {case}: Enabled {}, Disabled {}",
                decided.enabled, decided.disabled
            );
        }
        for (asked, count) in &self.some_of_ten {
            println!("  {asked:?}, sandbox with some of the ten: {count}");
        }
        for (feature, count) in self.opened_by_keyword.iter().enumerate() {
            if *count > 0 {
                println!("  Enabled by allow-{}: {count}", FEATURES[feature].name);
            }
        }
        self.schemes.print();
        self.sizes.print();
    }

    /// What is too rare; empty if the sessions bite.
    pub fn lacks(&self) -> Vec<String> {
        // 1,000 over a million calls.
        let wanted = (self.calls / 1000).max(1);
        let mut lacks = Vec::new();
        for kind in REQUIRED {
            let count = self.kinds.get(kind).copied().unwrap_or(0);
            if count < wanted {
                lacks.push(format!("{kind}: {count}, wanted {wanted}"));
            }
        }
        lacks.extend(self.sandbox_lacks(wanted));
        lacks.extend(self.schemes.lacks(self.calls));
        lacks.extend(self.sizes.lacks(self.calls));
        let deep = self.deep_enabled + self.deep_disabled;
        for (name, count) in [
            ("Enabled", self.deep_enabled),
            ("Disabled", self.deep_disabled),
        ] {
            if count == 0 || count * 10 < deep {
                lacks.push(format!(
                    "{name} at depth {DEEP} or more: {count} of {deep}, wanted a tenth"
                ));
            }
        }
        lacks
    }
}

/// Where a frame stands: its own sandbox attribute, and how many levels it is
/// beneath another's.
#[derive(Clone, Copy, Debug)]
struct Place {
    own: Option<SandboxedFrame>,
    levels: Option<usize>,
}

impl Place {
    fn of_document(document: &Known) -> Self {
        Place {
            own: document.own_sandbox,
            levels: document.beneath_sandbox,
        }
    }

    /// The cases of R-1 that one of the ten features is there.
    fn cases(self, feature: usize) -> Vec<&'static str> {
        let Some(own) = self.own else {
            return match self.levels {
                None => Vec::new(),
                Some(1) => vec!["no attribute, one level beneath one"],
                Some(_) => vec!["no attribute, two levels or more beneath one"],
            };
        };
        let (keyword, named) = (own.keywords[feature], own.named[feature]);
        let mut cases = vec![match (keyword, named) {
            _ if feature == PLUGINS && named => "own attribute, plugins named by allow",
            _ if feature == PLUGINS => "own attribute, plugins not named",
            (true, true) => "own attribute, keyword and allow entry",
            (true, false) => "own attribute, by keyword",
            (false, true) => "own attribute, by allow entry",
            (false, false) => "own attribute, neither",
        }];
        if feature != PLUGINS && (keyword || named) {
            if own.same_origin {
                cases.push("own attribute with allow-same-origin, keyword or entry");
            }
            if self.levels.is_some() {
                cases.push("own attribute beneath another, keyword or entry");
            }
        }
        cases
    }
}

/// The answer without the parts that vary.
fn kind_of(answer: &[u8]) -> String {
    let answer = String::from_utf8_lossy(answer);
    if answer == "bad line" || answer.starts_with("refused") {
        return answer.into_owned();
    }
    if answer.starts_with("loaded") && answer.ends_with("malformed") {
        return "loaded malformed".to_string();
    }
    answer.split(' ').next().unwrap_or_default().to_string()
}
