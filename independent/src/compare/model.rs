//! What the answers so far say about the table: enough to aim calls at it.

use crate::allowlist::Allowlist;
use crate::attributes::{container_policy, features_by_keyword, sandboxes, ContainerPolicy};
use crate::expressions::SourceExpression;
use crate::features::FEATURE_COUNT;
use crate::header::DeclaredPolicy;
use crate::limits::MAX_DOCUMENTS;
use crate::origins::{Origin, OriginText};
use crate::replay::{self, Call, FrameFields};

/// What a frame with a sandbox attribute of its own says of the features.
#[derive(Clone, Copy, Debug)]
pub struct SandboxedFrame {
    /// Those whose keyword stands.
    pub keywords: [bool; FEATURE_COUNT],
    /// Those that its allow attribute names.
    pub named: [bool; FEATURE_COUNT],
    /// Whether `allow-same-origin` stands.
    pub same_origin: bool,
}

impl SandboxedFrame {
    /// Of a framed load or a forecast; nothing if it has no sandbox attribute.
    pub fn of_line(line: &[u8]) -> Option<Self> {
        let (allow, sandbox) = replay::attributes_of(line)?;
        let sandbox = sandbox?;
        let origin = Origin::FreshOpaque;
        let policy = container_policy(&allow, false, None, &origin, &origin);
        Some(SandboxedFrame {
            keywords: features_by_keyword(&sandbox),
            named: std::array::from_fn(|feature| policy[feature].is_some()),
            same_origin: !sandboxes(Some(&sandbox)),
        })
    }
}

#[derive(Clone, Debug)]
pub struct Known {
    pub serial: u32,
    pub container: Option<u32>,
    /// 0 for a top-level document.
    pub depth: usize,
    /// By the generator's own guess; only used to aim.
    pub sandboxed: bool,
    /// What its frame says, if that has a sandbox attribute.
    pub own_sandbox: Option<SandboxedFrame>,
    /// How many levels it is beneath the nearest document whose frame has a
    /// sandbox attribute; nothing if there is none above.
    pub beneath_sandbox: Option<usize>,
    /// Every opaque origin is a fresh one here.
    pub origin: Origin<'static>,
    /// What its header declares.
    pub declared: [Option<Allowlist>; FEATURE_COUNT],
    /// What its frame's allow attribute says, if it has no sandbox attribute.
    pub allow: ContainerPolicy,
}

impl Known {
    /// The features and expressions of its header.
    pub fn expressions(&self) -> Vec<(usize, &SourceExpression)> {
        let mut found = Vec::new();
        for (feature, list) in self.declared.iter().enumerate() {
            if let Some(Allowlist::Listed { expressions, .. }) = list {
                found.extend(expressions.iter().map(|e| (feature, e)));
            }
        }
        found
    }

    /// Whether its frame or one above has a sandbox attribute.
    pub fn in_sandbox(&self) -> bool {
        self.own_sandbox.is_some() || self.beneath_sandbox.is_some()
    }
}

#[derive(Clone, Debug, Default)]
pub struct Model {
    pub live: Vec<Known>,
    pub closed: Vec<u32>,
    pub last_serial: u32,
    /// Whether the table was full once.
    pub was_full: bool,
    /// Whether the last change was an unload from a full table.
    pub room_freed: bool,
}

impl Model {
    pub fn get(&self, serial: u32) -> Option<&Known> {
        self.live.iter().find(|d| d.serial == serial)
    }

    /// The serials beneath, ascending.
    pub fn beneath(&self, serial: u32) -> Vec<u32> {
        let mut found = Vec::new();
        for document in &self.live {
            if document
                .container
                .is_some_and(|c| c == serial || found.contains(&c))
            {
                found.push(document.serial);
            }
        }
        found
    }

    /// How many levels are beneath.
    pub fn levels_beneath(&self, serial: u32) -> usize {
        let depth = |serial: u32| self.get(serial).map_or(0, |d| d.depth);
        let deepest = self.beneath(serial).into_iter().map(depth).max();
        deepest.map_or(0, |deepest| deepest - depth(serial))
    }

    pub fn is_leaf(&self, serial: u32) -> bool {
        !self.live.iter().any(|d| d.container == Some(serial))
    }

    /// For a frame in this container: how many levels it is beneath the nearest
    /// document whose frame has a sandbox attribute.
    pub fn levels_beneath_sandbox(&self, container: u32) -> Option<usize> {
        let container = self.get(container)?;
        match container.own_sandbox {
            Some(_) => Some(1),
            None => container.beneath_sandbox.map(|levels| levels + 1),
        }
    }

    /// The origin that a text means; an empty one means this document's. Every
    /// opaque origin is a fresh one here.
    pub fn origin_of(&self, text: &[u8], empty: Option<u32>) -> Origin<'static> {
        match OriginText::parse(text) {
            Some(OriginText::Tuple(tuple)) => Origin::Tuple(tuple).into_owned(),
            Some(OriginText::Empty) => empty
                .and_then(|serial| self.get(serial))
                .map_or(Origin::FreshOpaque, |d| d.origin.clone()),
            _ => Origin::FreshOpaque,
        }
    }

    /// What the allow attribute of a frame without a sandbox attribute says.
    pub fn allow_of(&self, frame: &FrameFields) -> ContainerPolicy {
        if frame.sandbox.is_some() {
            return ContainerPolicy::default();
        }
        let container = Some(frame.container);
        container_policy(
            &frame.allow,
            frame.allowfullscreen,
            None,
            &self.origin_of(b"", container),
            &self.origin_of(&frame.src, container),
        )
    }

    /// Takes note of a call and its answer.
    pub fn observe(&mut self, line: &[u8], answer: &[u8], sandboxed: bool) {
        if let Some(rest) = answer.strip_prefix(b"loaded ") {
            let digits = rest.split(|&b| b == b' ').next().unwrap_or(rest);
            let Some(serial) = parse_number(digits) else {
                return;
            };
            let container = match field(line, 0) {
                b"frame" => parse_number(field(line, 1)),
                _ => None,
            };
            let depth = container
                .and_then(|c| self.get(c))
                .map_or(0, |c| c.depth + 1);
            let beneath_sandbox = container.and_then(|c| self.levels_beneath_sandbox(c));
            let (origin, header, allow) = match Call::parse(line) {
                Some(Call::Top { origin, header }) => (origin, header, Default::default()),
                Some(Call::Frame {
                    element,
                    origin,
                    header,
                }) => (origin, header, self.allow_of(&element)),
                _ => return,
            };
            let origin = self.origin_of(&origin, container);
            let declared = DeclaredPolicy::parse(&header)
                .unwrap_or_default()
                .settle(&origin);
            self.last_serial = serial;
            self.live.push(Known {
                serial,
                container,
                depth,
                sandboxed,
                own_sandbox: SandboxedFrame::of_line(line),
                beneath_sandbox,
                origin,
                declared,
                allow,
            });
            self.was_full |= self.live.len() == MAX_DOCUMENTS;
            self.room_freed = false;
        } else if answer.starts_with(b"unloaded ") {
            let Some(serial) = parse_number(field(line, 1)) else {
                return;
            };
            let mut gone = self.beneath(serial);
            gone.push(serial);
            self.room_freed = self.live.len() == MAX_DOCUMENTS;
            self.live.retain(|d| !gone.contains(&d.serial));
            self.closed.extend(gone);
        }
    }
}

/// The field of a line, empty if there is none.
pub fn field(line: &[u8], index: usize) -> &[u8] {
    line.split(|&b| b == b'\t').nth(index).unwrap_or_default()
}

pub fn parse_number(digits: &[u8]) -> Option<u32> {
    std::str::from_utf8(digits).ok()?.parse().ok()
}
