//! Makes a differing session as short as it can.

use std::time::{Duration, Instant};

use super::model::{field, parse_number};
use super::{own_answers, Session};

/// How long the search may take.
const PATIENCE: Duration = Duration::from_secs(60);

/// The shortest session found for which `differs` still holds; it must hold
/// for the session given.
pub fn shrink(session: Session, differs: &mut dyn FnMut(&[Vec<u8>]) -> bool) -> Session {
    let mut search = Search {
        best: session,
        differs,
        end: Instant::now() + PATIENCE,
    };
    loop {
        let before = size(&search.best);
        search.drop_runs_of_lines();
        search.drop_loads();
        search.shorten_fields();
        if size(&search.best) == before || search.out_of_time() {
            return search.best;
        }
    }
}

fn size(session: &[Vec<u8>]) -> usize {
    session.iter().map(|line| line.len() + 1).sum()
}

struct Search<'a> {
    best: Session,
    differs: &'a mut dyn FnMut(&[Vec<u8>]) -> bool,
    end: Instant,
}

impl Search<'_> {
    fn out_of_time(&self) -> bool {
        Instant::now() > self.end
    }

    /// Takes the candidate if it is good.
    fn try_session(&mut self, candidate: Session) -> bool {
        if self.out_of_time() || !(self.differs)(&candidate) {
            return false;
        }
        self.best = candidate;
        true
    }

    /// Drops runs of lines, long runs first.
    fn drop_runs_of_lines(&mut self) {
        let mut length = self.best.len() / 2;
        while length > 0 {
            let mut start = self.best.len().saturating_sub(length);
            loop {
                let end = (start + length).min(self.best.len());
                let mut candidate = self.best.clone();
                candidate.drain(start..end);
                self.try_session(candidate);
                if start == 0 {
                    break;
                }
                start = start.saturating_sub(length);
            }
            length /= 2;
        }
    }

    /// Drops one load after the other, with the later serials made to fit.
    fn drop_loads(&mut self) {
        let mut index = 0;
        while index < self.best.len() {
            let answers = own_answers(&self.best);
            let serial = answers[index]
                .strip_prefix(b"loaded ")
                .and_then(|rest| parse_number(rest.split(|&b| b == b' ').next()?));
            let dropped = serial.is_some_and(|serial| {
                let container = match field(&self.best[index], 0) {
                    b"frame" => parse_number(field(&self.best[index], 1)),
                    _ => None,
                };
                let mut candidate: Session = self
                    .best
                    .iter()
                    .map(|line| renumbered(line, serial, container))
                    .collect();
                candidate.remove(index);
                self.try_session(candidate)
            });
            if !dropped {
                index += 1;
            }
        }
    }

    fn shorten_fields(&mut self) {
        for index in 0..self.best.len() {
            let count = self.best[index].split(|&b| b == b'\t').count();
            for place in 1..count {
                self.shorten_field(index, place);
            }
        }
    }

    /// Drops runs of bytes of one field, long runs first.
    fn shorten_field(&mut self, index: usize, place: usize) {
        let mut length = field(&self.best[index], place).len();
        while length > 0 {
            let mut start = 0;
            loop {
                let current = field(&self.best[index], place).to_vec();
                if start + length > current.len() {
                    break;
                }
                let mut shorter = current;
                shorter.drain(start..start + length);
                let mut candidate = self.best.clone();
                candidate[index] = with_field(&candidate[index], place, &shorter);
                if !self.try_session(candidate) {
                    start += length;
                }
            }
            length /= 2;
        }
    }
}

fn with_field(line: &[u8], place: usize, new: &[u8]) -> Vec<u8> {
    let mut fields: Vec<&[u8]> = line.split(|&b| b == b'\t').collect();
    fields[place] = new;
    fields.join(&b'\t')
}

/// The line as it must read when the load of this serial is gone: what named
/// it names its container, and what came later has a smaller serial.
fn renumbered(line: &[u8], gone: u32, container: Option<u32>) -> Vec<u8> {
    let name = field(line, 0);
    if name == b"top" || name == b"tidy" {
        return line.to_vec();
    }
    let serial = match parse_number(field(line, 1)) {
        Some(serial) if serial > gone => serial - 1,
        Some(serial) if serial == gone => container.unwrap_or(serial),
        _ => return line.to_vec(),
    };
    with_field(line, 1, serial.to_string().as_bytes())
}

#[cfg(test)]
mod tests {
    use super::*;

    #[test]
    fn finds_the_lines_that_matter() {
        let session: Session = [
            "tidy\t0\t",
            "top\tnull\t",
            "top\tnull\t",
            "tidy\t9\tcamera=()",
            "frame\t2\t\t\t0\tcamera *; forms\t0\t",
            "",
            "frame\t3\tnull\t\t0\tcamera *; forms\t0\t",
            "enabled\t4",
            "beneath\t2\t1",
        ]
        .iter()
        .map(|line| line.as_bytes().to_vec())
        .collect();
        // As if the other engine got the enabled features of a frame wrong.
        let mut differs = |session: &[Vec<u8>]| {
            own_answers(session).iter().zip(session).any(|(a, line)| {
                a.starts_with(b"features")
                    && field(line, 0) == b"enabled"
                    && a != b"features 131071"
            })
        };
        assert!(differs(&session));
        let shortest = shrink(session, &mut differs);
        assert_eq!(
            shortest,
            [
                b"top\tnull\t".to_vec(),
                b"frame\t1\tnull\t\t0\t\t0\t".to_vec(),
                b"enabled\t2".to_vec()
            ]
        );
    }
}
