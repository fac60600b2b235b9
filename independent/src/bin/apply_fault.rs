//! Applies one fault: apply_fault EDIT_FILE PROJECT_FOLDER
//!
//! The first line of the file says what is wrong, the second which file is
//! edited; then `--- old`, the old text, `--- new`, the new text. The old text
//! must occur exactly once.

use std::fs;
use std::path::Path;
use std::process::ExitCode;

fn main() -> ExitCode {
    let arguments: Vec<String> = std::env::args().skip(1).collect();
    let result = match arguments.as_slice() {
        [edit, project] => apply(Path::new(edit), Path::new(project)),
        _ => Err("usage: apply_fault EDIT_FILE PROJECT_FOLDER".to_string()),
    };
    match result {
        Ok(()) => ExitCode::SUCCESS,
        Err(message) => {
            eprintln!("apply_fault: {message}");
            ExitCode::FAILURE
        }
    }
}

fn apply(edit: &Path, project: &Path) -> Result<(), String> {
    let shape = || format!("{}: not an edit", edit.display());
    let text = read(edit)?;
    let (head, rest) = text.split_once("\n--- old\n").ok_or_else(shape)?;
    let (old, new) = rest.split_once("\n--- new\n").ok_or_else(shape)?;
    let mut lines = head.lines();
    let first = lines.next().unwrap_or_default();
    let file = lines.next().ok_or_else(shape)?;
    if !first.starts_with("# ") || lines.next().is_some() {
        return Err(shape());
    }
    let new = new.strip_suffix('\n').unwrap_or(new);
    let path = project.join(file);
    let source = read(&path)?;
    match source.matches(old).count() {
        1 => fs::write(&path, source.replacen(old, new, 1))
            .map_err(|e| format!("{}: {e}", path.display())),
        count => Err(format!(
            "{}: the old text occurs {count} times in {file}",
            edit.display()
        )),
    }
}

fn read(path: &Path) -> Result<String, String> {
    fs::read_to_string(path).map_err(|e| format!("{}: {e}", path.display()))
}
