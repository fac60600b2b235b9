//! The replay format: one call a line, one answer a line.

use std::io::{self, BufRead, Write};

use crate::limits::{MAX_DOCUMENTS, MAX_TEXT_BYTES, MAX_TIDIED_BYTES};
use crate::refusal::Refusal;
use crate::table::{Decision, Frame, Loaded, Table};
use crate::tidy::tidy;

/// Reads every line and writes its answer, on a new table.
pub fn replay(mut input: impl BufRead, mut output: impl Write) -> io::Result<()> {
    let mut table = Table::new();
    let mut line = Vec::new();
    let mut out = Vec::new();
    loop {
        line.clear();
        if input.read_until(b'\n', &mut line)? == 0 {
            return output.flush();
        }
        if line.last() == Some(&b'\n') {
            line.pop();
        }
        out.clear();
        answer(&mut table, &line, &mut out);
        out.push(b'\n');
        output.write_all(&out)?;
    }
}

/// Adds the answer to one line (without its line feed) to `out`.
pub fn answer(table: &mut Table, line: &[u8], out: &mut Vec<u8>) {
    match Call::parse(line) {
        None => out.extend_from_slice(b"bad line"),
        Some(call) => {
            if let Err(refusal) = call.make(table, out) {
                out.extend_from_slice(format!("refused {}", refusal.number()).as_bytes());
            }
        }
    }
}

/// The allow and the sandbox attribute of a framed load or a forecast.
pub fn attributes_of(line: &[u8]) -> Option<(Vec<u8>, Option<Vec<u8>>)> {
    match Call::parse(line)? {
        Call::Frame { element, .. } | Call::Forecast { element } => {
            Some((element.allow, element.sandbox))
        }
        _ => None,
    }
}

/// A line that is a call, its texts decoded.
pub enum Call {
    Top {
        origin: Vec<u8>,
        header: Vec<u8>,
    },
    Frame {
        element: FrameFields,
        origin: Vec<u8>,
        header: Vec<u8>,
    },
    Unload {
        serial: u32,
    },
    Ask {
        serial: u32,
        feature: u32,
        origin: Vec<u8>,
    },
    Enabled {
        serial: u32,
    },
    Beneath {
        serial: u32,
        room: u32,
    },
    Forecast {
        element: FrameFields,
    },
    Tidy {
        room: u32,
        header: Vec<u8>,
    },
}

/// The fields that a framed load and a forecast share.
pub struct FrameFields {
    pub container: u32,
    pub src: Vec<u8>,
    pub allowfullscreen: bool,
    pub allow: Vec<u8>,
    pub sandbox: Option<Vec<u8>>,
}

impl FrameFields {
    fn parse(
        container: &[u8],
        src: &[u8],
        fullscreen: &[u8],
        allow: &[u8],
        sandbox: &[u8],
    ) -> Option<Self> {
        Some(FrameFields {
            container: number(container)?,
            src: text(src)?,
            allowfullscreen: flag(fullscreen)?,
            allow: text(allow)?,
            sandbox: sandbox_field(sandbox)?,
        })
    }

    fn as_frame(&self) -> Frame<'_> {
        Frame {
            container: self.container,
            src: &self.src,
            allowfullscreen: self.allowfullscreen,
            allow: &self.allow,
            sandbox: self.sandbox.as_deref(),
        }
    }
}

impl Call {
    pub fn parse(line: &[u8]) -> Option<Call> {
        let fields: Vec<&[u8]> = line.split(|&b| b == b'\t').collect();
        Some(match fields[..] {
            [b"top", origin, header] => Call::Top {
                origin: text(origin)?,
                header: text(header)?,
            },
            [b"frame", container, origin, src, fullscreen, allow, sandbox, header] => Call::Frame {
                element: FrameFields::parse(container, src, fullscreen, allow, sandbox)?,
                origin: text(origin)?,
                header: text(header)?,
            },
            [b"unload", serial] => Call::Unload {
                serial: number(serial)?,
            },
            [b"ask", serial, feature, origin] => Call::Ask {
                serial: number(serial)?,
                feature: number(feature)?,
                origin: text(origin)?,
            },
            [b"enabled", serial] => Call::Enabled {
                serial: number(serial)?,
            },
            [b"beneath", serial, room] => Call::Beneath {
                serial: number(serial)?,
                room: number(room)?,
            },
            [b"forecast", container, src, fullscreen, allow, sandbox] => Call::Forecast {
                element: FrameFields::parse(container, src, fullscreen, allow, sandbox)?,
            },
            [b"tidy", room, header] => Call::Tidy {
                room: number(room)?,
                header: text(header)?,
            },
            _ => return None,
        })
    }

    fn make(&self, table: &mut Table, out: &mut Vec<u8>) -> Result<(), Refusal> {
        let answer = match self {
            Call::Top { origin, header } => loaded(table.load_top_level(origin, header)?),
            Call::Frame {
                element,
                origin,
                header,
            } => loaded(table.load_framed(&element.as_frame(), origin, header)?),
            Call::Unload { serial } => format!("unloaded {}", table.unload(*serial)?),
            Call::Ask {
                serial,
                feature,
                origin,
            } => match table.question(*serial, *feature, origin)? {
                Decision::Enabled => "Enabled".to_string(),
                Decision::Disabled => "Disabled".to_string(),
            },
            Call::Enabled { serial } => format!("features {}", table.enabled_features(*serial)?),
            Call::Beneath { serial, room } => {
                let mut lent = vec![0; lent_length(*room, MAX_DOCUMENTS)];
                let count = table.serials_beneath(*serial, &mut lent)?;
                let mut answer = format!("beneath {count}");
                for serial in &lent[..count] {
                    answer.push_str(&format!(" {serial}"));
                }
                answer
            }
            Call::Forecast { element } => {
                format!("features {}", table.forecast(&element.as_frame())?)
            }
            Call::Tidy { room, header } => {
                let mut lent = vec![0; lent_length(*room, MAX_TIDIED_BYTES)];
                let length = tidy(header, &mut lent)?;
                out.extend_from_slice(b"tidied ");
                out.extend_from_slice(&lent[..length]);
                return Ok(());
            }
        };
        out.extend_from_slice(answer.as_bytes());
        Ok(())
    }
}

fn loaded(loaded: Loaded) -> String {
    let serial = loaded.serial;
    if loaded.malformed {
        format!("loaded {serial} malformed")
    } else {
        format!("loaded {serial}")
    }
}

/// "the program lends no more than the longest output can need"
fn lent_length(room: u32, longest: usize) -> usize {
    usize::try_from(room).map_or(longest, |room| room.min(longest))
}

/// "Numbers are decimal, no sign, no leading zero (but `0`), at most
/// 4294967295."
fn number(field: &[u8]) -> Option<u32> {
    if field.is_empty() || (field.len() > 1 && field[0] == b'0') {
        return None;
    }
    let mut value: u32 = 0;
    for &b in field {
        if !b.is_ascii_digit() {
            return None;
        }
        value = value.checked_mul(10)?.checked_add(u32::from(b - b'0'))?;
    }
    Some(value)
}

/// "`%` and two hex digits (either case) stand for that byte"; "at most one byte
/// more than the limit is kept". That is enough to see a text too long, and no
/// origin text comes near it.
fn text(field: &[u8]) -> Option<Vec<u8>> {
    let mut decoded = Vec::with_capacity(field.len());
    let mut bytes = field.iter();
    while let Some(&byte) = bytes.next() {
        if byte == b'%' {
            let high = hex_digit(*bytes.next()?)?;
            let low = hex_digit(*bytes.next()?)?;
            decoded.push(high * 16 + low);
        } else {
            decoded.push(byte);
        }
    }
    decoded.truncate(MAX_TEXT_BYTES + 1);
    Some(decoded)
}

fn hex_digit(byte: u8) -> Option<u8> {
    match byte {
        b'0'..=b'9' => Some(byte - b'0'),
        b'a'..=b'f' => Some(byte - b'a' + 10),
        b'A'..=b'F' => Some(byte - b'A' + 10),
        _ => None,
    }
}

/// "FULLSCREEN is `0` or `1`."
fn flag(field: &[u8]) -> Option<bool> {
    match field {
        b"0" => Some(false),
        b"1" => Some(true),
        _ => None,
    }
}

/// "SANDBOX is `0` (no attribute) or `1` followed at once by the attribute's
/// text"; "the first byte of SANDBOX is literal, and `0` stands alone".
fn sandbox_field(field: &[u8]) -> Option<Option<Vec<u8>>> {
    match field {
        b"0" => Some(None),
        [b'1', attribute @ ..] => Some(Some(text(attribute)?)),
        _ => None,
    }
}

#[cfg(test)]
mod tests {
    use super::*;

    fn answers(input: &[u8]) -> Vec<String> {
        let mut out = Vec::new();
        replay(input, &mut out).expect("memory");
        String::from_utf8(out)
            .expect("ascii")
            .lines()
            .map(str::to_string)
            .collect()
    }

    #[test]
    fn a_session() {
        let input = b"top\thttps://a.example\tcamera=(self \"https://b.example\")
frame\t1\thttps://b.example\thttps://b.example\t1\tcamera\t0\tX
ask\t2\t0\t
ask\t2\t0\t%6eull
enabled\t2
beneath\t1\t1
beneath\t1\t0
beneath\t2\t0
forecast\t1\thttps://b.example\t0\t\t0
forecast\t1\thttps://b.example\t0\t\t1
forecast\t1\thttps://b.example\t0\t\t1Allow-%73cripts%0aallow-forms
tidy\t9\tcamera=%28)
tidy\t0\t
unload\t1
ask\t1\t17\t
ask\t1\t0\t";
        assert_eq!(
            answers(input),
            [
                "loaded 1",
                "loaded 2 malformed",
                "Enabled",
                "Disabled",
                "features 64925",
                "beneath 1 2",
                "refused 9",
                "beneath 0",
                "features 64908",
                "features 0",
                "features 16392",
                "tidied camera=()",
                "tidied ",
                "unloaded 2",
                "refused 2",
                "refused 1",
            ]
        );
    }

    #[test]
    fn bad_lines() {
        let lines: [&[u8]; 24] = [
            b"",
            b"top",
            b"top\tnull",
            b"top\tnull\t\t",
            b"Top\tnull\t",
            b"%74op\tnull\t",
            b"top\tnull\t%",
            b"top\tnull\t%4",
            b"top\tnull\t%4g",
            b"unload\t",
            b"unload\t01",
            b"unload\t+1",
            b"unload\t-1",
            b"unload\t4294967296",
            b"unload\t%31",
            b"unload\t1\r",
            b"unload 1",
            b"forecast\t1\t\t2\t\t0",
            b"forecast\t1\t\t%31\t\t0",
            b"forecast\t1\t\t0\t\t2",
            b"forecast\t1\t\t0\t\t",
            b"forecast\t1\t\t0\t\t0x",
            b"forecast\t1\t\t0\t\t%31",
            b"forecast\t1\t\t0\t\t1%",
        ];
        for line in lines {
            let mut out = Vec::new();
            answer(&mut Table::new(), line, &mut out);
            assert_eq!(out, b"bad line", "{}", String::from_utf8_lossy(line));
        }
    }

    #[test]
    fn the_last_line_feed_starts_no_line() {
        assert_eq!(answers(b"").len(), 0);
        assert_eq!(answers(b"\n"), ["bad line"]);
        assert_eq!(answers(b"\n\n"), ["bad line", "bad line"]);
        assert_eq!(answers(b"unload\t0\nunload\t4294967295"), ["refused 1"; 2]);
    }

    #[test]
    fn long_texts_are_refused_not_bad() {
        for length in [4097, 5000, 5_000_000] {
            let long = "x".repeat(length);
            assert_eq!(answers(format!("top\tx\t{long}").as_bytes()), ["refused 4"]);
            assert_eq!(answers(format!("top\t{long}\t").as_bytes()), ["refused 3"]);
            assert_eq!(answers(format!("top\t\t{long}%x").as_bytes()), ["bad line"]);
        }
        assert_eq!(answers(b"tidy\t4294967295\tcamera=*"), ["tidied camera=*"]);
    }

    /// The limit is of the bytes that are meant, not of those that are written.
    #[test]
    fn texts_at_the_limit() {
        for byte in ["x", "%78"] {
            let [most, over] = [4096, 4097].map(|length| byte.repeat(length));
            let line = |length: &str, place: usize| {
                let text = |here: usize| if here == place { length } else { "" };
                let [header, allow, sandbox] = [text(0), text(1), text(2)];
                format!(
                    "top\tnull\t{}\nframe\t1\tnull\t\t0\t{allow}\t1{sandbox}\t{header}\n\
                     forecast\t1\t\t0\t{allow}\t1{sandbox}\ntidy\t0\t{header}",
                    text(3)
                )
            };
            for place in 0..4 {
                let wanted = ["loaded 1", "loaded 2", "features 0", "tidied "];
                assert_eq!(answers(line(&most, place).as_bytes()), wanted);
                let long = "refused 4";
                let wanted = match place {
                    0 => ["loaded 1", long, "features 0", long],
                    1 | 2 => ["loaded 1", long, long, "tidied "],
                    _ => [long, "refused 1", "refused 1", "tidied "],
                };
                assert_eq!(answers(line(&over, place).as_bytes()), wanted);
            }
        }
    }

    /// "ROOM may be any number".
    #[test]
    fn lent_runs() {
        let mut lines: Vec<String> = vec!["top\tnull\t".to_string()];
        lines.extend((0..63).map(|_| "frame\t1\tnull\t\t0\t\t0\t".to_string()));
        let rooms = [0, 1, 16, 62, 63, 64, 65, 4096, u32::MAX];
        lines.extend(rooms.iter().map(|room| format!("beneath\t1\t{room}")));
        let serials: Vec<String> = (2..=64).map(|serial| serial.to_string()).collect();
        let listing = format!("beneath 63 {}", serials.join(" "));
        for (room, answer) in rooms
            .iter()
            .zip(&answers(lines.join("\n").as_bytes())[64..])
        {
            let wanted = if *room < 63 { "refused 9" } else { &listing };
            assert_eq!(answer, wanted, "{room}");
        }
    }
}
