//! Random sessions for comparing this engine with another, answer by answer.

pub mod model;
pub mod other;
pub mod random;
pub mod schemes;
pub mod session;
pub mod shrink;
pub mod sizes;
pub mod tally;
pub mod texts;

use crate::replay;
use crate::table::Table;

/// The lines of a session, without their line feeds.
pub type Session = Vec<Vec<u8>>;

/// This engine's answers to a session.
pub fn own_answers(session: &[Vec<u8>]) -> Vec<Vec<u8>> {
    let mut table = Table::new();
    session
        .iter()
        .map(|line| {
            let mut out = Vec::new();
            replay::answer(&mut table, line, &mut out);
            out
        })
        .collect()
}

/// The session as bytes on standard input: "the last may lack" its line feed,
/// and does in about half of the sessions.
pub fn input_of(session: &[Vec<u8>]) -> Vec<u8> {
    let mut input = joined(session);
    if lacks_last_line_feed(session) {
        input.pop();
    }
    input
}

/// Settled by the last line, so that a session is always given alike. An empty
/// last line needs its line feed.
pub fn lacks_last_line_feed(session: &[Vec<u8>]) -> bool {
    session
        .last()
        .is_some_and(|line| line.iter().fold(0, |sum, b| sum ^ b) & 1 == 1)
}

/// The lines, each with its line feed.
pub fn joined(lines: &[Vec<u8>]) -> Vec<u8> {
    let mut input = Vec::with_capacity(lines.iter().map(|l| l.len() + 1).sum());
    for line in lines {
        input.extend_from_slice(line);
        input.push(b'\n');
    }
    input
}
