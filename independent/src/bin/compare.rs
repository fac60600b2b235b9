//! Compares this engine with another program, answer by answer, on random
//! sessions; or writes one session with this engine's answers.
//!
//! compare --other PROGRAM [--calls N] [--seed S] [--session-calls K]
//!         [--no-shrink] [--keep FILE]
//! compare --make-session N [--seed S] --out DIR

use std::fs;
use std::path::{Path, PathBuf};
use std::process::ExitCode;

use independent::compare::other::{first_difference, Other};
use independent::compare::random::Random;
use independent::compare::session::Generator;
use independent::compare::shrink::shrink;
use independent::compare::tally::Tally;
use independent::compare::{input_of, joined, lacks_last_line_feed, own_answers, Session};

const USAGE: &str = "usage: compare --other PROGRAM [--calls N] [--seed S] [--session-calls K]
                       [--no-shrink] [--keep FILE]
       compare --make-session N [--seed S] --out DIR";

struct Options {
    other: Option<PathBuf>,
    calls: usize,
    seed: u64,
    session_calls: usize,
    shrink: bool,
    keep: Option<PathBuf>,
    make_session: Option<usize>,
    out: Option<PathBuf>,
}

impl Options {
    fn parse(mut arguments: impl Iterator<Item = String>) -> Result<Self, String> {
        let mut options = Options {
            other: None,
            calls: 1_000_000,
            seed: 1,
            session_calls: 400,
            shrink: true,
            keep: None,
            make_session: None,
            out: None,
        };
        while let Some(name) = arguments.next() {
            if name == "--no-shrink" {
                options.shrink = false;
                continue;
            }
            let value = arguments
                .next()
                .ok_or_else(|| format!("{name} needs a value"))?;
            let number = || {
                value
                    .parse::<u64>()
                    .map_err(|_| format!("{name} needs a number"))
            };
            match name.as_str() {
                "--other" => options.other = Some(PathBuf::from(&value)),
                "--calls" => options.calls = number()? as usize,
                "--seed" => options.seed = number()?,
                "--session-calls" => options.session_calls = (number()? as usize).max(1),
                "--keep" => options.keep = Some(PathBuf::from(&value)),
                "--make-session" => options.make_session = Some(number()? as usize),
                "--out" => options.out = Some(PathBuf::from(&value)),
                _ => return Err(format!("unknown option {name}")),
            }
        }
        Ok(options)
    }
}

fn main() -> ExitCode {
    let result = Options::parse(std::env::args().skip(1)).and_then(|options| {
        match (&options.other, options.make_session, &options.out) {
            (Some(other), None, None) => compare(other, &options),
            (None, Some(calls), Some(out)) => make_session(calls, options.seed, out),
            _ => Err("one of the two forms is needed".to_string()),
        }
    });
    match result {
        Ok(true) => ExitCode::SUCCESS,
        Ok(false) => ExitCode::FAILURE,
        Err(message) => {
            eprintln!("compare: {message}\n{USAGE}");
            ExitCode::from(2)
        }
    }
}

/// True if there is no difference and the sessions bite.
fn compare(program: &Path, options: &Options) -> Result<bool, String> {
    println!("seed {}", options.seed);
    let other = Other::new(program);
    let ask_other = |session: &[Vec<u8>]| {
        other
            .answers(session)
            .map_err(|error| format!("{}: {error}", program.display()))
    };
    let mut tally = Tally::default();
    let mut number = 0;
    while (tally.calls as usize) < options.calls {
        let calls = options
            .session_calls
            .min(options.calls - tally.calls as usize);
        let random = Random::for_session(options.seed, number);
        let (session, ours) = Generator::new(random, false).session(calls, |step| {
            tally.observe(step.before, step.line, step.answer)
        });
        let theirs = ask_other(&session)?;
        if let Some(place) = first_difference(&ours, &theirs) {
            println!("DIFFERENCE in session {number}, line {}", place + 1);
            let cut: Session = session[..session.len().min(place + 1)].to_vec();
            // A difference after the last line needs the whole session.
            let start = if differs(&cut, &ask_other) {
                cut
            } else {
                session
            };
            let shortest = if options.shrink {
                shrink(start, &mut |candidate| differs(candidate, &ask_other))
            } else {
                start
            };
            report(&shortest, &ask_other(&shortest)?, options)?;
            return Ok(false);
        }
        number += 1;
    }
    println!("sessions {number}");
    tally.print();
    let lacks = tally.lacks();
    for lack in &lacks {
        println!("TOO RARE {lack}");
    }
    println!(
        "no difference in {} calls{}",
        tally.calls,
        if lacks.is_empty() {
            ""
        } else {
            ", but the sessions don't bite"
        }
    );
    Ok(lacks.is_empty())
}

fn differs(
    session: &[Vec<u8>],
    ask_other: &impl Fn(&[Vec<u8>]) -> Result<Vec<Vec<u8>>, String>,
) -> bool {
    ask_other(session)
        .is_ok_and(|theirs| first_difference(&own_answers(session), &theirs).is_some())
}

/// Prints the session with both answers where they differ, and ours elsewhere.
fn report(session: &[Vec<u8>], theirs: &[Vec<u8>], options: &Options) -> Result<(), String> {
    let ours = own_answers(session);
    let shown = |answers: &[Vec<u8>], index: usize| match answers.get(index) {
        Some(answer) => answer.escape_ascii().to_string(),
        None => "(no answer)".to_string(),
    };
    let lines = session.len().max(theirs.len());
    // Without shrinking only the end matters.
    let first = if options.shrink {
        0
    } else {
        lines.saturating_sub(1)
    };
    for index in first..lines {
        match session.get(index) {
            Some(line) => println!("  {}", line.escape_ascii()),
            None => println!("  (after the last line)"),
        }
        if ours.get(index) == theirs.get(index) {
            println!("    -> {}", shown(&ours, index));
        } else {
            println!("    here  -> {}", shown(&ours, index));
            println!("    other -> {}", shown(theirs, index));
        }
    }
    if lacks_last_line_feed(session) {
        println!("  (the last line was given without its line feed)");
    }
    if let Some(path) = &options.keep {
        fs::write(path, input_of(session)).map_err(|e| format!("{}: {e}", path.display()))?;
    }
    Ok(())
}

/// Writes one session to DIR/stdin and this engine's answers to DIR/stdout.
fn make_session(calls: usize, seed: u64, out: &Path) -> Result<bool, String> {
    let mut tally = Tally::default();
    let (session, answers) = Generator::new(Random::for_session(seed, 0), true)
        .session(calls, |step| {
            tally.observe(step.before, step.line, step.answer)
        });
    let write = |name: &str, lines: &[Vec<u8>]| {
        let path = out.join(name);
        fs::write(&path, joined(lines)).map_err(|e| format!("{}: {e}", path.display()))
    };
    fs::create_dir_all(out).map_err(|e| format!("{}: {e}", out.display()))?;
    write("stdin", &session)?;
    write("stdout", &answers)?;
    println!("seed {seed}");
    tally.print();
    Ok(true)
}
