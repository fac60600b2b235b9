//! Random sessions: lists of calls, aimed by the answers so far.

use super::model::{Known, Model};
use super::random::Random;
use super::texts::{self, Mood, OriginShares, Sandbox};
use super::Session;
use crate::features::FEATURE_COUNT;
use crate::limits::{MAX_DOCUMENTS, MAX_TIDIED_BYTES};
use crate::origins::Origin;
use crate::replay;
use crate::table::Table;
use crate::tidy::tidy;

/// How the documents of a session lie.
#[derive(Clone, Copy, PartialEq, Eq)]
enum Shape {
    /// In any way.
    Mixed,
    /// Each beneath all the others.
    Chain,
    /// Nearly all in one top-level document.
    Fan,
    /// Most at the top level.
    Grove,
}

/// What a session tends to.
struct Style {
    mood: Mood,
    shape: Shape,
    /// For a session that fills the table, the weight of loads until it is full.
    filling: Option<usize>,
    /// How many frames of a hundred take little away, in such a session.
    calm: usize,
    /// How many documents it likes to have loaded.
    documents: usize,
    /// How often of a hundred a frame goes into the deepest document.
    deepest: usize,
    /// How many lines of a hundred are broken.
    bad_lines: usize,
    /// How many serials of a hundred name no loaded document.
    bad_serials: usize,
    /// How many origin texts of a hundred are bad.
    bad_origins: usize,
    /// How many feature numbers of a hundred are bad.
    bad_features: usize,
    /// How many calls of a hundred have several reasons to be refused.
    trouble: usize,
}

impl Style {
    fn new(random: &mut Random, keep_short: bool) -> Self {
        let mood = Mood::new(random);
        let filling = random.percent(25).then(|| *random.pick(&[120, 400, 400]));
        let shapes = [Shape::Mixed, Shape::Chain, Shape::Fan, Shape::Grove];
        Style {
            mood: if keep_short {
                mood.keeping_short()
            } else {
                mood
            },
            shape: match filling {
                Some(_) => *random.pick(&shapes),
                None => Shape::Mixed,
            },
            documents: match filling {
                Some(_) => MAX_DOCUMENTS,
                None => *random.pick(&[3, 5, 8, 12, 16, 24, MAX_DOCUMENTS]),
            },
            filling,
            calm: *random.pick(&[40, 80, 97]),
            deepest: *random.pick(&[0, 30, 60, 90]),
            bad_lines: *random.pick(&[0, 2, 4, 8]),
            bad_serials: *random.pick(&[2, 6, 12]),
            bad_origins: *random.pick(&[2, 5]),
            bad_features: *random.pick(&[2, 5]),
            trouble: if keep_short {
                1
            } else {
                *random.pick(&[0, 4, 10])
            },
        }
    }

    /// The same, for a call with several reasons to be refused.
    fn troubled(&self) -> Self {
        Style {
            mood: Mood {
                long: 250,
                damage: 30,
                ..self.mood.clone()
            },
            bad_serials: 45,
            bad_origins: 45,
            bad_features: 45,
            ..*self
        }
    }
}

/// How many calls in a row keep one style in a session that is kept.
const STYLE_CALLS: usize = 400;

/// Makes the lines of one session one by one.
pub struct Generator {
    random: Random,
    style: Style,
    model: Model,
    table: Table,
    keep_short: bool,
    made: usize,
    /// Whether the last call was an accepted load.
    just_loaded: bool,
}

/// A line, this engine's answer to it, and the model as it was before.
pub struct Step<'a> {
    pub line: &'a [u8],
    pub answer: &'a [u8],
    pub before: &'a Model,
}

impl Generator {
    pub fn new(mut random: Random, keep_short: bool) -> Self {
        let style = Style::new(&mut random, keep_short);
        Generator {
            random,
            style,
            model: Model::default(),
            table: Table::new(),
            keep_short,
            made: 0,
            just_loaded: false,
        }
    }

    /// Makes so many lines, with this engine's answers.
    pub fn session(
        mut self,
        calls: usize,
        mut observe: impl FnMut(Step),
    ) -> (Session, Vec<Vec<u8>>) {
        let mut lines = Vec::with_capacity(calls);
        let mut answers = Vec::with_capacity(calls);
        for _ in 0..calls {
            if self.keep_short && self.made % STYLE_CALLS == STYLE_CALLS - 1 {
                self.style = Style::new(&mut self.random, true);
            }
            self.made += 1;
            let (line, sandboxed) = self.line();
            let mut answer = Vec::new();
            replay::answer(&mut self.table, &line, &mut answer);
            observe(Step {
                line: &line,
                answer: &answer,
                before: &self.model,
            });
            self.model.observe(&line, &answer, sandboxed);
            self.just_loaded = answer.starts_with(b"loaded");
            lines.push(line);
            answers.push(answer);
        }
        (lines, answers)
    }

    /// A line, and whether it is meant as a sandboxed load.
    fn line(&mut self) -> (Vec<u8>, bool) {
        let (mut line, sandboxed) = if self.random.percent(self.style.trouble) {
            let troubled = self.style.troubled();
            let usual = std::mem::replace(&mut self.style, troubled);
            let made = self.call();
            self.style = usual;
            made
        } else {
            self.call()
        };
        if self.random.percent(self.style.bad_lines) {
            line = self.broken(line);
        }
        (line, sandboxed)
    }

    fn call(&mut self) -> (Vec<u8>, bool) {
        // What the new document may do is mostly asked at once.
        let asked_at_once = if self.style.filling.is_some() { 15 } else { 60 };
        if self.just_loaded && self.random.percent(asked_at_once) {
            let serial = self.model.last_serial.to_string().into_bytes();
            return (line("enabled", &[serial]), false);
        }
        let weights = self.weights();
        match self.random.weighted(&weights) {
            0 => (self.top(), false),
            1 => self.frame(),
            2 => (self.unload(), false),
            3 => (self.ask(), false),
            4 => (self.enabled(), false),
            5 => (self.beneath(), false),
            6 => (self.forecast(), false),
            _ => (self.tidy(), false),
        }
    }

    /// How often each call is made.
    fn weights(&self) -> [usize; 8] {
        let live = self.model.live.len();
        let wants_more = live < self.style.documents;
        let full = live >= MAX_DOCUMENTS;
        let (top, frame, unload) = match (self.style.filling, wants_more) {
            (Some(_), false) => (3, 25, 14),
            (Some(loads), true) if live == 0 => (loads, 2, 1),
            (Some(loads), true) => match self.style.shape {
                Shape::Mixed => (loads / 8, loads, 2),
                Shape::Chain | Shape::Fan => (0, loads, 1),
                Shape::Grove => (loads, loads / 3, 3),
            },
            (None, true) => (if live == 0 { 60 } else { 6 }, 40, 2),
            (None, false) => (1, if full { 10 } else { 4 }, 14),
        };
        let (enabled, beneath) = match self.style.filling {
            Some(_) => (10, 14),
            None => (4, 5),
        };
        [top, frame, unload, 45, enabled, beneath, 15, 12]
    }

    // ------------------------------------------------------ the calls

    fn top(&mut self) -> Vec<u8> {
        let shares = OriginShares {
            null: 12,
            empty: 4,
            bad: self.style.bad_origins,
        };
        let origin = texts::origin_text(&mut self.random, &self.style.mood, shares);
        let header = texts::top_level_header(&mut self.random, &self.style.mood);
        let fields = [self.text(&origin), self.text(&header)];
        line("top", &fields)
    }

    fn frame(&mut self) -> (Vec<u8>, bool) {
        // A full table is tried with every kind of frame.
        let full = self.model.live.len() >= MAX_DOCUMENTS;
        if self.style.filling.is_some() && !full && self.random.percent(self.style.calm) {
            return self.calm_frame();
        }
        if self.style.shape != Shape::Chain && self.random.percent(30) {
            if let Some((container, origin, allow)) = self.frame_about_expressions() {
                let header = if self.random.percent(70) {
                    Vec::new()
                } else {
                    texts::header(&mut self.random, &self.style.mood)
                };
                let src = self.src();
                let fields = [
                    container.to_string().into_bytes(),
                    self.text(&origin),
                    self.text(&src),
                    self.flag(),
                    self.text(&allow),
                    b"0".to_vec(),
                    self.text(&header),
                ];
                return (line("frame", &fields), false);
            }
        }
        let sandbox = self.sandbox();
        let container = self.container_beside(&sandbox);
        let sandboxed = sandbox.as_ref().is_some_and(|s| !s.same_origin);
        let sandboxed = sandboxed || self.is_sandboxed(container);
        let src = self.src();
        // Mostly what was announced arrives; sandboxed frames must be null.
        let origin = if sandboxed && !self.random.percent(15) {
            b"null".to_vec()
        } else if self.random.percent(45) {
            src.clone()
        } else {
            let shares = OriginShares {
                null: 10,
                empty: 15,
                bad: self.style.bad_origins,
            };
            texts::origin_text(&mut self.random, &self.style.mood, shares)
        };
        let allow = self.allow(&sandbox);
        let header = if self.random.percent(35) {
            Vec::new()
        } else {
            texts::header(&mut self.random, &self.style.mood)
        };
        let fields = [
            container.to_string().into_bytes(),
            self.text(&origin),
            self.text(&src),
            self.flag(),
            self.text(&allow),
            self.sandbox_field(&sandbox),
            self.text(&header),
        ];
        (line("frame", &fields), sandboxed)
    }

    /// A frame that takes little away from what its container may do, so that
    /// something is left for the documents far beneath.
    fn calm_frame(&mut self) -> (Vec<u8>, bool) {
        let container = self.container();
        let sandboxed = self.is_sandboxed(container);
        let src = if self.random.percent(50) {
            Vec::new()
        } else {
            texts::good_origin(&mut self.random, &self.style.mood).into_bytes()
        };
        let origin = if sandboxed {
            b"null".to_vec()
        } else if self.random.percent(20) {
            Vec::new()
        } else {
            src.clone()
        };
        let allow = texts::calm_allow(&mut self.random, &self.style.mood);
        let header = texts::calm_header(&mut self.random, &self.style.mood);
        let fields = [
            container.to_string().into_bytes(),
            self.text(&origin),
            self.text(&src),
            self.flag(),
            self.text(&allow),
            b"0".to_vec(),
            self.text(&header),
        ];
        (line("frame", &fields), sandboxed)
    }

    fn forecast(&mut self) -> Vec<u8> {
        if self.random.percent(30) {
            if let Some((container, src, allow)) = self.frame_about_expressions() {
                let fields = [
                    container.to_string().into_bytes(),
                    self.text(&src),
                    self.flag(),
                    self.text(&allow),
                    b"0".to_vec(),
                ];
                return line("forecast", &fields);
            }
        }
        let sandbox = self.sandbox();
        let container = self.container_beside(&sandbox);
        let src = self.src();
        let allow = self.allow(&sandbox);
        let fields = [
            container.to_string().into_bytes(),
            self.text(&src),
            self.flag(),
            self.text(&allow),
            self.sandbox_field(&sandbox),
        ];
        line("forecast", &fields)
    }

    fn unload(&mut self) -> Vec<u8> {
        let candidates: Vec<u32> = match self.random.below(10) {
            // In the middle of a chain.
            4..=6 if self.style.shape == Shape::Chain => self.where_known(|_, d| d.depth > 0),
            0 => self.where_known(|model, d| model.is_leaf(d.serial) && d.depth == 0),
            1 => self.where_known(|_, d| d.depth == 0),
            2..=3 => self.where_known(|_, d| d.depth > 0),
            _ => self.where_known(|model, d| model.is_leaf(d.serial)),
        };
        let serial = if candidates.is_empty() || self.random.percent(self.style.bad_serials) {
            self.serial_not_loaded()
        } else {
            *self.random.pick(&candidates)
        };
        line("unload", &[serial.to_string().into_bytes()])
    }

    fn ask(&mut self) -> Vec<u8> {
        if self.random.percent(45) {
            if let Some(line) = self.ask_near_header() {
                return line;
            }
        }
        let serial = self.serial();
        let feature = if self.random.percent(self.style.bad_features) {
            *self
                .random
                .pick(&[17, 17, 18, 31, 32, 255, 256, 65536, u32::MAX])
        } else if self.model.get(serial).is_some_and(Known::in_sandbox) && self.random.percent(50) {
            texts::default_all_feature(&mut self.random, &self.style.mood) as u32
        } else if self.random.percent(65) {
            *self.random.pick(&self.style.mood.features) as u32
        } else {
            self.random.below(FEATURE_COUNT) as u32
        };
        let shares = OriginShares {
            null: 8,
            empty: 35,
            bad: self.style.bad_origins,
        };
        let origin = texts::origin_text(&mut self.random, &self.style.mood, shares);
        let fields = [
            serial.to_string().into_bytes(),
            feature.to_string().into_bytes(),
            self.text(&origin),
        ];
        line("ask", &fields)
    }

    /// A question about a feature whose declared list has an expression, at an
    /// origin near it; mostly in a top-level document, which inherits Enabled.
    fn ask_near_header(&mut self) -> Option<Vec<u8>> {
        let only_top = self.random.percent(75);
        let wanted = |d: &Known| (d.depth == 0 || !only_top) && !d.expressions().is_empty();
        let mut documents = self.where_known(|_, d| wanted(d));
        if documents.is_empty() {
            return None;
        }
        if self.random.percent(50) {
            let crowded = self.where_known(|_, d| wanted(d) && d.expressions().len() >= 100);
            if !crowded.is_empty() {
                documents = crowded;
            }
        }
        let serial = *self.random.pick(&documents);
        let expressions = self.model.get(serial)?.expressions();
        let (feature, expression) = *self.random.pick(&expressions);
        let origin = texts::origin_near(&mut self.random, expression);
        let fields = [
            serial.to_string().into_bytes(),
            feature.to_string().into_bytes(),
            self.text(&origin),
        ];
        Some(line("ask", &fields))
    }

    fn enabled(&mut self) -> Vec<u8> {
        let serial = self.serial();
        line("enabled", &[serial.to_string().into_bytes()])
    }

    fn beneath(&mut self) -> Vec<u8> {
        // Many serials are beneath the first document, if anywhere.
        let often = if self.style.filling.is_some() { 60 } else { 20 };
        let serial = match self.model.live.first() {
            Some(first) if self.random.percent(often) => first.serial,
            _ => self.serial(),
        };
        let room = self.room(self.model.beneath(serial).len());
        line(
            "beneath",
            &[
                serial.to_string().into_bytes(),
                room.to_string().into_bytes(),
            ],
        )
    }

    fn tidy(&mut self) -> Vec<u8> {
        let header = texts::header_to_tidy(&mut self.random, &self.style.mood);
        let length = tidy(&header, &mut [0; MAX_TIDIED_BYTES]).unwrap_or(0);
        let room = self.room(length);
        let fields = [room.to_string().into_bytes(), self.text(&header)];
        line("tidy", &fields)
    }

    // ----------------------------------------------------- the fields

    /// A lent run for an output of this length: enough, or just not enough.
    fn room(&mut self, length: usize) -> u32 {
        let length = length as u32;
        match self.random.below(13) {
            0 => 0,
            1..=3 => length.saturating_sub(1),
            4..=6 => length,
            7 => length + 1,
            8 => self.random.below(MAX_DOCUMENTS + 6) as u32,
            9 => *self.random.pick(&[
                16,
                17,
                1024,
                MAX_DOCUMENTS as u32 - 1,
                MAX_DOCUMENTS as u32,
                MAX_TIDIED_BYTES as u32 - 1,
                MAX_TIDIED_BYTES as u32,
                MAX_TIDIED_BYTES as u32 + 1,
                65536,
            ]),
            _ => *self.random.pick(&[5000, u32::MAX, u32::MAX - 1, 1 << 31]),
        }
    }

    fn where_known(&self, wanted: impl Fn(&Model, &Known) -> bool) -> Vec<u32> {
        self.model
            .live
            .iter()
            .filter(|d| wanted(&self.model, d))
            .map(|d| d.serial)
            .collect()
    }

    fn is_sandboxed(&self, serial: u32) -> bool {
        self.model.get(serial).is_some_and(|d| d.sandboxed)
    }

    /// A serial to ask about: mostly a loaded document, deep ones preferred.
    fn serial(&mut self) -> u32 {
        if self.model.live.is_empty() || self.random.percent(self.style.bad_serials) {
            return self.serial_not_loaded();
        }
        let deep = self.where_known(|_, d| d.depth >= 2);
        if !deep.is_empty() && self.random.percent(40) {
            return *self.random.pick(&deep);
        }
        self.random.pick(&self.model.live).serial
    }

    fn container(&mut self) -> u32 {
        if self.model.live.is_empty() || self.random.percent(self.style.bad_serials) {
            return self.serial_not_loaded();
        }
        let deepest = match self.style.shape {
            Shape::Mixed => self.style.deepest,
            Shape::Chain => 100,
            Shape::Fan => 2,
            Shape::Grove => 0,
        };
        if self.random.percent(deepest) {
            let deepest = self.model.live.iter().max_by_key(|d| d.depth);
            return deepest.map_or(0, |d| d.serial);
        }
        if self.style.shape == Shape::Fan && self.random.percent(90) {
            return self.model.live[0].serial;
        }
        self.random.pick(&self.model.live).serial
    }

    /// Closed, zero, to come, or huge.
    fn serial_not_loaded(&mut self) -> u32 {
        match self.random.below(10) {
            0..=4 if !self.model.closed.is_empty() => {
                // Those closed lately more often.
                let lately = self.model.closed.len().saturating_sub(6);
                if self.random.percent(60) {
                    *self.random.pick(&self.model.closed[lately..])
                } else {
                    *self.random.pick(&self.model.closed)
                }
            }
            0..=5 => 0,
            6..=7 => self.model.last_serial + 1,
            8 => self.model.last_serial + 2 + self.random.below(20) as u32,
            _ => *self
                .random
                .pick(&[u32::MAX, u32::MAX - 1, 1 << 31, 65536, 256]),
        }
    }

    fn src(&mut self) -> Vec<u8> {
        let shares = OriginShares {
            null: 8,
            empty: 15,
            bad: self.style.bad_origins,
        };
        texts::origin_text(&mut self.random, &self.style.mood, shares)
    }

    /// The container of a frame, mostly a top-level document, the origin for
    /// which it is judged, and an allow attribute with expressions about that.
    fn frame_about_expressions(&mut self) -> Option<(u32, Vec<u8>, Vec<u8>)> {
        let only_top = self.random.percent(75);
        let wanted =
            |d: &Known| (d.depth == 0 || !only_top) && matches!(d.origin, Origin::Tuple(_));
        let containers = self.where_known(|_, d| wanted(d));
        if containers.is_empty() {
            return None;
        }
        let container = *self.random.pick(&containers);
        let origin = texts::origin_of_either_scheme(&mut self.random, &self.style.mood);
        let allow = texts::allow_about(&mut self.random, &origin);
        Some((container, origin.into_bytes(), allow))
    }

    fn flag(&mut self) -> Vec<u8> {
        self.random.pick(&["0", "0", "1"]).as_bytes().to_vec()
    }

    /// The container of a frame with this attribute: more often one in which
    /// nothing is closed yet.
    fn container_beside(&mut self, sandbox: &Option<Sandbox>) -> u32 {
        let container = self.container();
        let open = self.where_known(|_, d| !d.in_sandbox());
        let chain = self.style.shape == Shape::Chain;
        if sandbox.is_some() && !chain && !open.is_empty() && self.random.percent(25) {
            return *self.random.pick(&open);
        }
        container
    }

    fn allow(&mut self, sandbox: &Option<Sandbox>) -> Vec<u8> {
        let mood = &self.style.mood;
        match sandbox {
            None => texts::allow(&mut self.random, mood),
            Some(sandbox) => texts::allow_beside_sandbox(&mut self.random, mood, sandbox),
        }
    }

    fn sandbox(&mut self) -> Option<Sandbox> {
        let mood = &self.style.mood;
        self.random
            .percent(mood.sandbox)
            .then(|| texts::sandbox(&mut self.random, mood))
    }

    fn sandbox_field(&mut self, sandbox: &Option<Sandbox>) -> Vec<u8> {
        match sandbox {
            None => b"0".to_vec(),
            Some(sandbox) => [b"1".to_vec(), self.text(&sandbox.text)].concat(),
        }
    }

    /// A text as a field, now and then with needless `%XX`.
    fn text(&mut self, bytes: &[u8]) -> Vec<u8> {
        let needless = if !self.random.percent(self.style.mood.escapes) {
            0
        } else if self.random.percent(85) || bytes.len() > 200 {
            10
        } else {
            100
        };
        let mut field = Vec::with_capacity(bytes.len());
        for &byte in bytes {
            let needed = matches!(byte, b'\t' | b'\n' | b'%');
            if needed || (needless > 0 && self.random.percent(needless)) {
                field.push(b'%');
                for digit in [byte >> 4, byte & 15] {
                    let digits: &[u8; 16] = if self.random.percent(50) {
                        b"0123456789abcdef"
                    } else {
                        b"0123456789ABCDEF"
                    };
                    field.push(digits[usize::from(digit)]);
                }
            } else {
                field.push(byte);
            }
        }
        field
    }

    // -------------------------------------------------- broken lines

    /// Mostly a bad line; never two lines.
    fn broken(&mut self, good: Vec<u8>) -> Vec<u8> {
        let mut fields: Vec<Vec<u8>> = good.split(|&b| b == b'\t').map(<[u8]>::to_vec).collect();
        let last = fields.len() - 1;
        match self.random.below(13) {
            0 => return Vec::new(),
            1 => {
                fields.pop();
            }
            2 => fields.push(self.random.pick(&["", "0", "x"]).as_bytes().to_vec()),
            3 => {
                let place = self.random.between(1, last);
                fields.insert(place, Vec::new());
            }
            4 => {
                fields[0] = self
                    .random
                    .pick(&[
                        "Top",
                        "load",
                        "",
                        "ask ",
                        " ask",
                        "tid",
                        "tidyy",
                        "forecasts",
                        "%61sk",
                        "a%73k",
                    ])
                    .as_bytes()
                    .to_vec();
            }
            5..=6 => self.break_number(&mut fields),
            7..=8 => {
                // A `%` without its two digits, in any field.
                let place = self.random.between(1, last);
                let broken = *self
                    .random
                    .pick(&["%", "%%", "%4", "%4g", "%g4", "% 4", "%x41", "%0"]);
                let at = self.random.below(fields[place].len() + 1);
                let tail = fields[place].split_off(at);
                fields[place].extend_from_slice(broken.as_bytes());
                fields[place].extend_from_slice(&tail);
            }
            9 => self.break_frame(&mut fields),
            10 => fields[last].push(b'\r'),
            11 => {
                // Another separator.
                let place = self.random.below(fields.len());
                let separator = *self.random.pick(b" ,;\r\0");
                fields[place].push(separator);
                if place < last {
                    let next = fields.remove(place + 1);
                    fields[place].extend_from_slice(&next);
                }
            }
            _ => {
                let mut line = good;
                texts::damage(&mut self.random, &mut line);
                line.retain(|&b| b != b'\n');
                return line;
            }
        }
        fields.join(&b'\t')
    }

    /// The first number of the line made something else.
    fn break_number(&mut self, fields: &mut [Vec<u8>]) {
        let place = if fields[0] == b"ask" && self.random.percent(50) {
            2
        } else {
            1
        };
        let Some(number) = fields.get_mut(place) else {
            return;
        };
        let text = String::from_utf8_lossy(number).into_owned();
        *number = match self.random.below(15) {
            0 => format!("0{text}"),
            1 => format!("+{text}"),
            2 => format!("-{text}"),
            3 => "4294967296".to_string(),
            4 => "4294967295".to_string(),
            5 => "42949672950".to_string(),
            6 => String::new(),
            7 => format!("{text} "),
            8 => format!(" {text}"),
            9 => "00".to_string(),
            10 => format!("%3{}", text.chars().next().unwrap_or('1')),
            11 => "18446744073709551617".to_string(),
            12 => format!("{text}a"),
            13 => format!("{}1", self.random.pick(&["0", "9"]).repeat(300)),
            _ => "4294967297".to_string(),
        }
        .into_bytes();
    }

    /// FULLSCREEN or SANDBOX made something else.
    fn break_frame(&mut self, fields: &mut [Vec<u8>]) {
        let sandbox = if fields[0] == b"frame" {
            6
        } else if fields[0] == b"forecast" {
            5
        } else {
            fields[0].push(b's');
            return;
        };
        let fullscreen = sandbox - 2;
        if self.random.percent(50) {
            let choices = [
                "2",
                "",
                "0x",
                "%31",
                "%30",
                "01",
                "00",
                " 1",
                "x",
                "-",
                // No attribute, and yet a text.
                "0allow-scripts",
                "0 allow-same-origin allow-forms",
                "0%20",
                "allow-scripts",
            ];
            fields[sandbox] = self.random.pick(&choices).as_bytes().to_vec();
        } else {
            let choices = ["2", "", "00", "01", "11", "%31", "%30", "true", "0 ", "-0"];
            fields[fullscreen] = self.random.pick(&choices).as_bytes().to_vec();
        }
    }
}

fn line(name: &str, fields: &[Vec<u8>]) -> Vec<u8> {
    let mut line = name.as_bytes().to_vec();
    for field in fields {
        line.push(b'\t');
        line.extend_from_slice(field);
    }
    line
}
