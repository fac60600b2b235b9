//! The table of loaded documents, and how a decision falls.

use crate::allowlist::Allowlist;
use crate::attributes::{container_policy, sandboxes};
use crate::features::{default_is_all, FEATURE_COUNT};
use crate::header::DeclaredPolicy;
use crate::limits::{LAST_SERIAL, MAX_DOCUMENTS, MAX_TEXT_BYTES};
use crate::origins::{Origin, OriginText};
use crate::refusal::Refusal;

#[derive(Clone, Copy, Debug, PartialEq, Eq)]
pub enum Decision {
    Enabled,
    Disabled,
}

impl Decision {
    fn enabled_if(condition: bool) -> Self {
        if condition {
            Decision::Enabled
        } else {
            Decision::Disabled
        }
    }
}

/// What an accepted load answers.
#[derive(Clone, Copy, Debug, PartialEq, Eq)]
pub struct Loaded {
    pub serial: u32,
    /// "A malformed header declares nothing, and the load says so."
    pub malformed: bool,
}

/// A frame as its container writes it.
#[derive(Clone, Copy, Debug)]
pub struct Frame<'a> {
    pub container: u32,
    pub src: &'a [u8],
    pub allowfullscreen: bool,
    pub allow: &'a [u8],
    /// "No sandbox attribute and an empty one differ."
    pub sandbox: Option<&'a [u8]>,
}

/// The policies of a document are settled at load.
#[derive(Clone, Debug)]
struct Document {
    serial: u32,
    container: Option<u32>,
    origin: Origin<'static>,
    sandboxed: bool,
    inherited: [Decision; FEATURE_COUNT],
    declared: [Option<Allowlist>; FEATURE_COUNT],
}

impl Document {
    /// *Value*: "Disabled if inherited Disabled; else, if declared, by the
    /// list; else Enabled."
    fn value(&self, feature: usize, origin: &Origin) -> Decision {
        if self.inherited[feature] == Decision::Disabled {
            return Decision::Disabled;
        }
        match &self.declared[feature] {
            Some(list) => Decision::enabled_if(list.admits(origin)),
            None => Decision::Enabled,
        }
    }

    /// *Question*: "Disabled if inherited Disabled; else by the declared list;
    /// else Enabled for default *; else Enabled only for the document's own
    /// origin."
    fn question(&self, feature: usize, origin: &Origin) -> Decision {
        if self.inherited[feature] == Decision::Disabled {
            return Decision::Disabled;
        }
        match &self.declared[feature] {
            Some(list) => Decision::enabled_if(list.admits(origin)),
            None => {
                Decision::enabled_if(default_is_all(feature) || self.origin.same_origin(origin))
            }
        }
    }

    /// *Inherited*, framed, with this document as the container: "Disabled
    /// unless the container's value is Enabled for the container's own origin
    /// and for the arriving origin; then, if the attribute has the feature, by
    /// its list; else Enabled for default *; else Enabled only for the
    /// container's own origin." What the attribute has is settled with R-1's
    /// step: a sandbox attribute of the frame's own gives lists too.
    fn inherited_by_frame(
        &self,
        feature: usize,
        attribute: &Option<Allowlist>,
        arriving: &Origin,
    ) -> Decision {
        if self.value(feature, &self.origin) == Decision::Disabled
            || self.value(feature, arriving) == Decision::Disabled
        {
            return Decision::Disabled;
        }
        match attribute {
            Some(list) => Decision::enabled_if(list.admits(arriving)),
            None => {
                Decision::enabled_if(default_is_all(feature) || self.origin.same_origin(arriving))
            }
        }
    }

    /// "A document loaded under either condition is itself sandboxed": the
    /// container is sandboxed, or the frame's sandbox attribute sandboxes.
    fn sandboxes_frame(&self, frame: &Frame) -> bool {
        self.sandboxed || sandboxes(frame.sandbox)
    }

    /// The declared origin of a frame in this container: "fresh and opaque if"
    /// sandboxed; "else the src origin text".
    fn declared_origin(&self, frame: &Frame, src: OriginText) -> Origin<'static> {
        if self.sandboxes_frame(frame) {
            return Origin::FreshOpaque;
        }
        match src {
            OriginText::Tuple(tuple) => Origin::Tuple(tuple).into_owned(),
            OriginText::Null => Origin::FreshOpaque,
            OriginText::Empty => self.origin.clone(),
        }
    }

    /// What a frame in this container inherits for each feature.
    fn inherited_policy(
        &self,
        frame: &Frame,
        declared: &Origin<'static>,
        arriving: &Origin,
    ) -> [Decision; FEATURE_COUNT] {
        let attributes = container_policy(
            frame.allow,
            frame.allowfullscreen,
            frame.sandbox,
            &self.origin,
            declared,
        );
        std::array::from_fn(|feature| {
            self.inherited_by_frame(feature, &attributes[feature], arriving)
        })
    }
}

/// A new table is empty.
#[derive(Clone, Debug, Default)]
pub struct Table {
    /// In order of loading, and so ascending by serial.
    documents: Vec<Document>,
    /// The serial given last; 0 before the first.
    last_serial: u32,
}

impl Table {
    pub fn new() -> Self {
        Table::default()
    }

    pub fn load_top_level(&mut self, origin: &[u8], header: &[u8]) -> Result<Loaded, Refusal> {
        check_length(header)?;
        let origin = parse_origin(origin)?;
        // "A top-level load has only a header and an origin text, and refuses
        // empty with 3."
        if matches!(origin, OriginText::Empty) {
            return Err(Refusal::BadOrigin);
        }
        let serial = self.next_serial()?;
        let origin = match origin {
            OriginText::Tuple(tuple) => Origin::Tuple(tuple).into_owned(),
            OriginText::Null | OriginText::Empty => Origin::Opaque(serial),
        };
        let document = Document {
            serial,
            container: None,
            origin,
            sandboxed: false,
            // "*Inherited*, top level: Enabled."
            inherited: [Decision::Enabled; FEATURE_COUNT],
            declared: Default::default(),
        };
        Ok(self.accept(document, header))
    }

    pub fn load_framed(
        &mut self,
        frame: &Frame,
        origin: &[u8],
        header: &[u8],
    ) -> Result<Loaded, Refusal> {
        check_length(header)?;
        check_frame_lengths(frame)?;
        let arriving = parse_origin(origin)?;
        let src = parse_origin(frame.src)?;
        let container = self.document(frame.container)?;
        let sandboxed = container.sandboxes_frame(frame);
        if sandboxed && !matches!(arriving, OriginText::Null) {
            return Err(Refusal::Sandbox);
        }
        let serial = self.next_serial()?;
        let arriving = match arriving {
            OriginText::Tuple(tuple) => Origin::Tuple(tuple).into_owned(),
            OriginText::Null => Origin::Opaque(serial),
            // "Empty means: the container's origin".
            OriginText::Empty => container.origin.clone(),
        };
        let declared_origin = container.declared_origin(frame, src);
        let inherited = container.inherited_policy(frame, &declared_origin, &arriving);
        let document = Document {
            serial,
            container: Some(frame.container),
            origin: arriving,
            sandboxed,
            inherited,
            declared: Default::default(),
        };
        Ok(self.accept(document, header))
    }

    /// "Unloading removes a document and all beneath it and answers how many."
    pub fn unload(&mut self, serial: u32) -> Result<usize, Refusal> {
        self.document(serial)?;
        let beneath = self.beneath(serial);
        let before = self.documents.len();
        self.documents
            .retain(|d| d.serial != serial && !beneath.contains(&d.serial));
        Ok(before - self.documents.len())
    }

    pub fn question(&self, serial: u32, feature: u32, origin: &[u8]) -> Result<Decision, Refusal> {
        let origin = parse_origin(origin)?;
        let feature = feature as usize;
        if feature >= FEATURE_COUNT {
            return Err(Refusal::NoSuchFeature);
        }
        let document = self.document(serial)?;
        Ok(match origin {
            OriginText::Tuple(tuple) => document.question(feature, &Origin::Tuple(tuple)),
            OriginText::Null => document.question(feature, &Origin::FreshOpaque),
            // "Empty means: [...] the document's own (questions)."
            OriginText::Empty => document.question(feature, &document.origin),
        })
    }

    /// "the features enabled at a document's own origin as one 32-bit number,
    /// bit n for feature n and no other bit"
    pub fn enabled_features(&self, serial: u32) -> Result<u32, Refusal> {
        let document = self.document(serial)?;
        Ok(bits(|feature| document.question(feature, &document.origin)))
    }

    /// "the serials beneath a document, ascending, written into a lent run of
    /// 32-bit numbers, places after them unchanged; the answer is how many"
    pub fn serials_beneath(&self, serial: u32, lent: &mut [u32]) -> Result<usize, Refusal> {
        self.document(serial)?;
        let serials = self.beneath(serial);
        let place = lent.get_mut(..serials.len()).ok_or(Refusal::Small)?;
        place.copy_from_slice(&serials);
        Ok(serials.len())
    }

    /// "A *forecast* is what a frame would inherit at its declared origin, as a
    /// number with bit n for feature n."
    pub fn forecast(&self, frame: &Frame) -> Result<u32, Refusal> {
        check_frame_lengths(frame)?;
        let src = parse_origin(frame.src)?;
        let container = self.document(frame.container)?;
        // "Each use makes another fresh one": a fresh opaque origin in a list
        // doesn't equal the one that the forecast is for.
        let declared_origin = container.declared_origin(frame, src);
        let inherited = container.inherited_policy(frame, &declared_origin, &declared_origin);
        Ok(bits(|feature| inherited[feature]))
    }

    fn document(&self, serial: u32) -> Result<&Document, Refusal> {
        self.documents
            .iter()
            .find(|d| d.serial == serial)
            .ok_or(Refusal::NotLoaded)
    }

    /// The serials of all documents beneath, ascending. A container is always
    /// loaded before what is beneath it.
    fn beneath(&self, serial: u32) -> Vec<u32> {
        let mut found = Vec::new();
        for document in &self.documents {
            let is_beneath = document
                .container
                .is_some_and(|c| c == serial || found.contains(&c));
            if is_beneath {
                found.push(document.serial);
            }
        }
        found
    }

    /// The serial that a load would get now: 6, then 7.
    fn next_serial(&self) -> Result<u32, Refusal> {
        if self.documents.len() >= MAX_DOCUMENTS {
            return Err(Refusal::Full);
        }
        if self.last_serial == LAST_SERIAL {
            return Err(Refusal::Spent);
        }
        Ok(self.last_serial + 1)
    }

    /// Settles the declared policy and takes the document in.
    fn accept(&mut self, mut document: Document, header: &[u8]) -> Loaded {
        let policy = DeclaredPolicy::parse(header);
        let malformed = policy.is_err();
        document.declared = policy.unwrap_or_default().settle(&document.origin);
        let serial = document.serial;
        self.last_serial = serial;
        self.documents.push(document);
        Loaded { serial, malformed }
    }
}

/// Bit n is set if feature n is Enabled.
fn bits(decision: impl Fn(usize) -> Decision) -> u32 {
    (0..FEATURE_COUNT)
        .filter(|&feature| decision(feature) == Decision::Enabled)
        .fold(0, |bits, feature| bits | 1 << feature)
}

fn check_length(text: &[u8]) -> Result<(), Refusal> {
    if text.len() > MAX_TEXT_BYTES {
        return Err(Refusal::TooLong);
    }
    Ok(())
}

fn check_frame_lengths(frame: &Frame) -> Result<(), Refusal> {
    check_length(frame.allow)?;
    check_length(frame.sandbox.unwrap_or_default())
}

fn parse_origin(text: &[u8]) -> Result<OriginText<'_>, Refusal> {
    OriginText::parse(text).ok_or(Refusal::BadOrigin)
}

#[cfg(test)]
mod tests;
