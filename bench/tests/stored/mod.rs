//! The stored output of a program beside the bench, line by line.

use std::fs;
use std::path::Path;

/// A file of the repository, its path given from the folder of the bench.
pub fn text(path: &str) -> String {
    let path = Path::new(env!("CARGO_MANIFEST_DIR")).join(path);
    fs::read_to_string(&path).unwrap_or_else(|error| panic!("{}: {error}", path.display()))
}

/// Fails with the first line that is not as the file has it, by its name.
pub fn compare(made: &[String], path: &str) {
    if let Some(difference) = first_difference(made, &text(path)) {
        panic!("{path}, {difference}");
    }
}

/// The first line that differs, is missing or is too many.
fn first_difference(made: &[String], stored: &str) -> Option<String> {
    let stored: Vec<&str> = stored.lines().collect();
    let lines = 0..made.len().max(stored.len());
    let pairs = lines.map(|i| (made.get(i).map(String::as_str), stored.get(i).copied()));
    let (at, (made, stored)) = pairs
        .enumerate()
        .find(|(_, (made, stored))| made != stored)?;
    let name = stored.or(made)?.split(':').next()?;
    Some(format!(
        "line {}, \"{name}\"\nstored: {}\n  made: {}",
        at + 1,
        stored.unwrap_or("nothing"),
        made.unwrap_or("nothing")
    ))
}
