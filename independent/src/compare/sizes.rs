//! R-4's cases: full tables, deep chains and wide trees, long listings, and
//! texts and tidied forms around their limits.

use std::collections::BTreeMap;

use super::model::{field, parse_number, Model};
use crate::allowlist::Allowlist;
use crate::header::{DeclaredList, DeclaredPolicy};
use crate::limits::{MAX_DOCUMENTS, MAX_TEXT_BYTES, MAX_TIDIED_BYTES};
use crate::replay::Call;
use crate::tidy::tidied_form;

#[derive(Clone, Debug, Default)]
pub struct SizeCases {
    tables: BTreeMap<&'static str, u64>,
    /// By call, field and length.
    texts: BTreeMap<(&'static str, &'static str), u64>,
}

/// What is wanted of tables, listings and tidied forms. The first level is the
/// top level.
const TABLES: [&str; 33] = [
    "top-level load refused with 6, 64 loaded",
    "framed load refused with 6, 64 loaded",
    "load refused with 1, 3 or 4, 64 loaded",
    "load refused with 5, 64 loaded",
    "64th document loaded, top level",
    "64th document loaded, framed",
    "64th document loaded, full before",
    "load after an unload from a full table",
    "loaded at level 17 to 32",
    "loaded at level 33 to 63",
    "loaded at level 64",
    "Enabled at level 33 or more",
    "Disabled at level 33 or more",
    "forecast for level 33 or more, not 0",
    "unload of 10 to 32",
    "unload of 33 to 63",
    "unload of 64",
    "unload of 2 or more, not at the top, from a full table",
    "unload with 17 or more levels beneath",
    "listing of 17 to 62, exact run",
    "listing of 17 to 62, longer run",
    "listing of 17 to 62, one place too few",
    "listing of 63, exact run",
    "listing of 63, longer run",
    "listing of 63, one place too few",
    "listing of 2 or more after a full table",
    "Enabled by a list of 150 expressions or more",
    "tidied list of 150 expressions or more",
    "tidied form of 4,095",
    "tidied form of 4,096",
    "tidied form of 4,096, exact run",
    "tidied form of 4,096, one place too few",
    "tidied form of 4,097 refused with 4",
];

/// The texts that have a limit: call, and field of the line.
const FIELDS: [(&str, &str, usize); 7] = [
    ("top", "top-level load, header", 2),
    ("frame", "framed load, header", 7),
    ("frame", "framed load, allow", 5),
    ("frame", "framed load, sandbox", 6),
    ("forecast", "forecast, allow", 4),
    ("forecast", "forecast, sandbox", 5),
    ("tidy", "tidying, header", 2),
];

const LENGTHS: [&str; 5] = [
    "1,025 to 4,094 accepted",
    "4,095 accepted",
    "4,096 accepted",
    "4,097 refused with 4",
    "5,000 or more refused with 4",
];

/// So many expressions fill most of the longest header.
const CROWD: usize = 150;

impl SizeCases {
    /// Takes note of a call and its answer; the model is as before the call.
    pub fn observe(&mut self, model: &Model, line: &[u8], answer: &[u8]) {
        self.note_texts(line, answer);
        match field(line, 0) {
            name @ (b"top" | b"frame") => self.note_load(model, name == b"top", line, answer),
            b"unload" if answer.starts_with(b"unloaded") => {
                self.note_unload(model, parse_number(field(line, 1)));
            }
            b"ask" => {
                self.note_answer(model, line, answer);
                if answer == b"Enabled" && asked_list(model, line) >= CROWD {
                    self.count("Enabled by a list of 150 expressions or more");
                }
            }
            b"forecast" => self.note_answer(model, line, answer),
            b"beneath" => self.note_listing(model, line, answer),
            b"tidy" => self.note_tidied(line, answer),
            _ => {}
        }
    }

    fn count(&mut self, case: &'static str) {
        *self.tables.entry(case).or_default() += 1;
    }

    fn note_load(&mut self, model: &Model, top: bool, line: &[u8], answer: &[u8]) {
        let live = model.live.len();
        if live == MAX_DOCUMENTS {
            match answer {
                b"refused 6" if top => self.count("top-level load refused with 6, 64 loaded"),
                b"refused 6" => self.count("framed load refused with 6, 64 loaded"),
                b"refused 5" => self.count("load refused with 5, 64 loaded"),
                b"refused 1" | b"refused 3" | b"refused 4" => {
                    self.count("load refused with 1, 3 or 4, 64 loaded");
                }
                _ => {}
            }
        }
        if !answer.starts_with(b"loaded") {
            return;
        }
        if live == MAX_DOCUMENTS - 1 {
            self.count(if top {
                "64th document loaded, top level"
            } else {
                "64th document loaded, framed"
            });
            if model.was_full {
                self.count("64th document loaded, full before");
            }
        }
        if model.room_freed {
            self.count("load after an unload from a full table");
        }
        match if top { 1 } else { level(model, line) + 1 } {
            17..=32 => self.count("loaded at level 17 to 32"),
            33..=63 => self.count("loaded at level 33 to 63"),
            64 => self.count("loaded at level 64"),
            _ => {}
        }
    }

    fn note_unload(&mut self, model: &Model, serial: Option<u32>) {
        let Some(document) = serial.and_then(|serial| model.get(serial)) else {
            return;
        };
        let gone = 1 + model.beneath(document.serial).len();
        match gone {
            10..=32 => self.count("unload of 10 to 32"),
            33..=63 => self.count("unload of 33 to 63"),
            64 => self.count("unload of 64"),
            _ => {}
        }
        if gone >= 2 && document.depth > 0 && model.live.len() == MAX_DOCUMENTS {
            self.count("unload of 2 or more, not at the top, from a full table");
        }
        if model.levels_beneath(document.serial) >= 17 {
            self.count("unload with 17 or more levels beneath");
        }
    }

    fn note_answer(&mut self, model: &Model, line: &[u8], answer: &[u8]) {
        let forecast = field(line, 0) == b"forecast" && answer.starts_with(b"features");
        let level = level(model, line);
        match answer {
            b"Enabled" if level >= 33 => self.count("Enabled at level 33 or more"),
            b"Disabled" if level >= 33 => self.count("Disabled at level 33 or more"),
            _ if level >= 32 && forecast && answer != b"features 0" => {
                self.count("forecast for level 33 or more, not 0");
            }
            _ => {}
        }
    }

    fn note_listing(&mut self, model: &Model, line: &[u8], answer: &[u8]) {
        let (Some(serial), Some(room)) =
            (parse_number(field(line, 1)), parse_number(field(line, 2)))
        else {
            return;
        };
        let count = model.beneath(serial).len();
        let listed = answer.starts_with(b"beneath");
        let exact = listed && room as usize == count;
        let short = answer == b"refused 9" && room as usize + 1 == count;
        match count {
            17..=62 if exact => self.count("listing of 17 to 62, exact run"),
            17..=62 if listed => self.count("listing of 17 to 62, longer run"),
            17..=62 if short => self.count("listing of 17 to 62, one place too few"),
            63 if exact => self.count("listing of 63, exact run"),
            63 if listed => self.count("listing of 63, longer run"),
            63 if short => self.count("listing of 63, one place too few"),
            _ => {}
        }
        if listed && count >= 2 && model.was_full {
            self.count("listing of 2 or more after a full table");
        }
    }

    fn note_tidied(&mut self, line: &[u8], answer: &[u8]) {
        // Most headers are too short for any case.
        if field(line, 2).len() < CROWD * 10 {
            return;
        }
        let Some(Call::Tidy { room, header }) = Call::parse(line) else {
            return;
        };
        let Ok(policy) = DeclaredPolicy::parse(&header) else {
            return;
        };
        let tidied = answer.starts_with(b"tidied");
        if tidied
            && policy
                .lists
                .iter()
                .flatten()
                .any(|l| expressions(l) >= CROWD)
        {
            self.count("tidied list of 150 expressions or more");
        }
        let length = tidied_form(&policy).len();
        let room = room as usize;
        if length + 1 == MAX_TIDIED_BYTES && tidied {
            self.count("tidied form of 4,095");
        } else if length == MAX_TIDIED_BYTES && tidied {
            self.count("tidied form of 4,096");
            if room == length {
                self.count("tidied form of 4,096, exact run");
            }
        } else if length == MAX_TIDIED_BYTES && room + 1 == length && answer == b"refused 9" {
            self.count("tidied form of 4,096, one place too few");
        } else if length == MAX_TIDIED_BYTES + 1
            && header.len() <= MAX_TEXT_BYTES
            && answer == b"refused 4"
        {
            self.count("tidied form of 4,097 refused with 4");
        }
    }

    /// A text counts if all the others of the call are within the limit.
    fn note_texts(&mut self, line: &[u8], answer: &[u8]) {
        // Most lines have no long text.
        if line.len() < 1025 {
            return;
        }
        let name = field(line, 0);
        let lengths: Vec<(&str, usize)> = FIELDS
            .iter()
            .filter(|(call, ..)| call.as_bytes() == name)
            .map(|(_, text, place)| (*text, length_of(text, field(line, *place))))
            .collect();
        let too_long = lengths.iter().filter(|(_, l)| *l > MAX_TEXT_BYTES).count();
        let refused = answer.starts_with(b"refused");
        for (text, length) in lengths {
            let case = match length {
                _ if length > MAX_TEXT_BYTES && (too_long > 1 || answer != b"refused 4") => None,
                _ if length <= MAX_TEXT_BYTES && refused => None,
                1025..=4094 => Some("1,025 to 4,094 accepted"),
                4095 => Some("4,095 accepted"),
                4096 => Some("4,096 accepted"),
                4097 => Some("4,097 refused with 4"),
                5000.. => Some("5,000 or more refused with 4"),
                _ => None,
            };
            if let Some(case) = case {
                *self.texts.entry((text, case)).or_default() += 1;
            }
        }
    }

    pub fn print(&self) {
        for case in TABLES {
            println!("  {case}: {}", self.tables.get(case).unwrap_or(&0));
        }
        for (_, text, _) in FIELDS {
            let count = |length| self.texts.get(&(text, length)).unwrap_or(&0);
            let counts = LENGTHS.map(|length| format!("{length} {}", count(length)));
            println!("  {text}: {}", counts.join(", "));
        }
    }

    /// What of R-4 is too rare.
    pub fn lacks(&self, calls: u64) -> Vec<String> {
        let mut lacks = Vec::new();
        let mut want = |name: String, count: Option<&u64>, wanted: u64| {
            let count = count.copied().unwrap_or(0);
            if count < wanted {
                lacks.push(format!("{name}: {count}, wanted {wanted}"));
            }
        };
        // 50 over a million calls.
        let wanted = (calls / 20_000).max(1);
        for case in TABLES {
            want(case.to_string(), self.tables.get(case), wanted);
        }
        for (_, text, _) in FIELDS {
            for length in LENGTHS {
                let count = self.texts.get(&(text, length));
                want(format!("{text}, {length}"), count, wanted);
            }
        }
        lacks
    }
}

/// The level of the document that the line names, 0 if it isn't loaded.
fn level(model: &Model, line: &[u8]) -> usize {
    parse_number(field(line, 1))
        .and_then(|serial| model.get(serial))
        .map_or(0, |document| document.depth + 1)
}

/// How many expressions the header has for the feature that the line asks for.
fn asked_list(model: &Model, line: &[u8]) -> usize {
    let [serial, feature] = [1, 2].map(|place| parse_number(field(line, place)));
    let list = serial
        .and_then(|serial| model.get(serial))
        .and_then(|document| document.declared.get(feature? as usize)?.as_ref());
    match list {
        Some(Allowlist::Listed { expressions, .. }) => expressions.len(),
        _ => 0,
    }
}

fn expressions(list: &DeclaredList) -> usize {
    match list {
        DeclaredList::Listed { expressions, .. } => expressions.len(),
        DeclaredList::All => 0,
    }
}

/// How many bytes a field of a good line means.
fn length_of(text: &str, field: &[u8]) -> usize {
    let escapes = field.iter().filter(|&&b| b == b'%').count();
    let mark = usize::from(text.ends_with("sandbox"));
    field.len() - 2 * escapes - mark.min(field.len())
}

#[cfg(test)]
mod tests {
    use super::*;

    /// A model with a chain of so many documents, and the tally of its loads.
    fn chain(count: usize) -> (Model, SizeCases) {
        let (mut model, mut cases) = (Model::default(), SizeCases::default());
        for number in 0..count {
            let line = match number {
                0 => "top\tnull\t".to_string(),
                _ => format!("frame\t{number}\tnull\t\t0\t\t0\t"),
            };
            let answer = format!("loaded {}", number + 1);
            cases.observe(&model, line.as_bytes(), answer.as_bytes());
            model.observe(line.as_bytes(), answer.as_bytes(), false);
        }
        (model, cases)
    }

    /// The cases of one call.
    fn cases_of(model: &Model, line: &str, answer: &str) -> Vec<&'static str> {
        let mut cases = SizeCases::default();
        cases.observe(model, line.as_bytes(), answer.as_bytes());
        cases.tables.into_keys().collect()
    }

    #[test]
    fn a_chain() {
        let (mut model, cases) = chain(64);
        let counts: Vec<(&str, u64)> = cases.tables.into_iter().collect();
        assert_eq!(
            counts,
            [
                ("64th document loaded, framed", 1),
                ("loaded at level 17 to 32", 16),
                ("loaded at level 33 to 63", 31),
                ("loaded at level 64", 1),
            ]
        );
        let refused = ["top-level load refused with 6, 64 loaded"];
        assert_eq!(cases_of(&model, "top\tnull\t", "refused 6"), refused);
        let none: [&str; 0] = [];
        assert_eq!(cases_of(&model, "ask\t32\t0\t", "Enabled"), none);
        let deep = ["Enabled at level 33 or more"];
        assert_eq!(cases_of(&model, "ask\t33\t0\t", "Enabled"), deep);
        for (room, answer, cases) in [
            (61, "refused 9", vec![]),
            (62, "refused 9", vec!["listing of 63, one place too few"]),
            (63, "beneath 63", vec!["listing of 63, exact run"]),
            (99, "beneath 63", vec!["listing of 63, longer run"]),
        ] {
            let mut found = cases_of(&model, &format!("beneath\t1\t{room}"), answer);
            found.retain(|case| *case != "listing of 2 or more after a full table");
            assert_eq!(found, cases, "{room}");
        }
        assert_eq!(
            cases_of(&model, "unload\t30", "unloaded 35"),
            [
                "unload of 2 or more, not at the top, from a full table",
                "unload of 33 to 63",
                "unload with 17 or more levels beneath",
            ]
        );
        assert_eq!(
            cases_of(&model, "unload\t48", "unloaded 17"),
            [
                "unload of 10 to 32",
                "unload of 2 or more, not at the top, from a full table",
            ]
        );
        model.observe(b"unload\t64", b"unloaded 1", false);
        assert_eq!(
            cases_of(&model, "top\tnull\t", "loaded 65"),
            [
                "64th document loaded, full before",
                "64th document loaded, top level",
                "load after an unload from a full table",
            ]
        );
    }

    #[test]
    fn lengths_of_texts() {
        let count = |line: String, answer: &str| {
            let mut cases = SizeCases::default();
            cases.observe(&Model::default(), line.as_bytes(), answer.as_bytes());
            cases.texts.into_keys().collect::<Vec<_>>()
        };
        let text = |length: usize| "x".repeat(length - 1) + "%41";
        let top = |length: usize| format!("top\tnull\t{}", text(length));
        let header = "top-level load, header";
        assert_eq!(count(top(4095), "loaded 1"), [(header, "4,095 accepted")]);
        assert_eq!(count(top(4096), "loaded 1"), [(header, "4,096 accepted")]);
        assert_eq!(count(top(4096), "refused 6"), []);
        let over = [(header, "4,097 refused with 4")];
        assert_eq!(count(top(4097), "refused 4"), over);
        let forecast = |allow: usize, sandbox: usize| {
            format!("forecast\t1\t\t0\t{}\t1{}", text(allow), text(sandbox))
        };
        assert_eq!(
            count(forecast(4096, 4097), "refused 4"),
            [("forecast, sandbox", "4,097 refused with 4")]
        );
        assert_eq!(count(forecast(4097, 4097), "refused 4"), []);
        assert_eq!(
            count(forecast(1025, 4096), "features 0"),
            [
                ("forecast, allow", "1,025 to 4,094 accepted"),
                ("forecast, sandbox", "4,096 accepted"),
            ]
        );
    }
}
