//! Runs the other program, one process for a session.

use std::io::{self, Write};
use std::path::{Path, PathBuf};
use std::process::{Command, Stdio};
use std::thread;

use super::input_of;

pub struct Other {
    program: PathBuf,
}

impl Other {
    pub fn new(program: &Path) -> Self {
        Other {
            program: program.to_path_buf(),
        }
    }

    /// The program's answers, a line each. A program that fails adds a last
    /// line that says so, and that is a difference.
    pub fn answers(&self, session: &[Vec<u8>]) -> io::Result<Vec<Vec<u8>>> {
        let mut child = Command::new(&self.program)
            .stdin(Stdio::piped())
            .stdout(Stdio::piped())
            .spawn()?;
        let input = input_of(session);
        let stdin = child.stdin.take();
        // Written from a thread, so that neither side waits for the other.
        let writer = thread::spawn(move || {
            if let Some(mut stdin) = stdin {
                // A program that ends early is found by its answers.
                let _ = stdin.write_all(&input);
            }
        });
        let output = child.wait_with_output()?;
        let _ = writer.join();
        let mut lines: Vec<Vec<u8>> = output
            .stdout
            .split(|&b| b == b'\n')
            .map(<[u8]>::to_vec)
            .collect();
        // What follows the last line feed must be nothing; answers without it are a difference.
        match lines.pop() {
            Some(rest) if !rest.is_empty() => {
                lines.push(rest);
                lines.push(b"(no line feed after the last answer)".to_vec());
            }
            _ => {}
        }
        if !output.status.success() {
            lines.push(format!("(the program ended with {})", output.status).into_bytes());
        }
        Ok(lines)
    }
}

/// The first place where the answers differ.
pub fn first_difference(ours: &[Vec<u8>], theirs: &[Vec<u8>]) -> Option<usize> {
    (0..ours.len().max(theirs.len())).find(|&i| ours.get(i) != theirs.get(i))
}
