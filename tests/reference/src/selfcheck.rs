//! The tests that the program selfcheck and `cargo test` run: the folders of tests/cases, tests/readings, tests/steps and tests/paths
//! here, beside the worked examples and the properties of random inputs.

use crate::answer::answer;
use crate::path::path;
use crate::reading::reading;
use crate::steps::steps;
use std::path::{Path, PathBuf};

/// A test's name, and what was seen or what went wrong.
pub type Outcome = (String, Result<String, String>);

/// The folder tests/cases beside this package.
pub fn case_folder() -> PathBuf {
    Path::new(env!("CARGO_MANIFEST_DIR")).join("../cases")
}

/// The folder tests/readings beside this package.
pub fn reading_folder() -> PathBuf {
    Path::new(env!("CARGO_MANIFEST_DIR")).join("../readings")
}

/// The folder tests/steps beside this package.
pub fn step_folder() -> PathBuf {
    Path::new(env!("CARGO_MANIFEST_DIR")).join("../steps")
}

/// The folder tests/paths beside this package.
pub fn path_folder() -> PathBuf {
    Path::new(env!("CARGO_MANIFEST_DIR")).join("../paths")
}

/// One test a folder: `answer` prints its expected.txt.
pub fn cases(folder: &Path) -> Vec<Outcome> {
    folders(folder, "case", print_answer_of)
}

/// What `answer` prints in a folder of tests/cases. A missing file counts as empty.
pub fn print_answer_of(folder: &Path) -> Vec<u8> {
    let file = |name: &str| std::fs::read(folder.join(name)).unwrap_or_default();
    answer(&file("sheet.txt"), &file("book.txt"), &file("steps.txt"))
}

/// One test a folder: what is read of its texts is what its expected.txt says.
pub fn readings(folder: &Path) -> Vec<Outcome> {
    folders(folder, "reading", print_reading_of)
}

/// What is read of the texts of a folder of tests/readings.
pub fn print_reading_of(folder: &Path) -> Vec<u8> {
    let file = |name: &str| std::fs::read(folder.join(name)).ok();
    reading(file("query.txt").as_deref(), file("database.txt").as_deref(), file("step.txt").as_deref())
}

/// One test a folder: the sheets that its steps write and the plan are what its expected.txt says.
pub fn rewritings(folder: &Path) -> Vec<Outcome> {
    folders(folder, "steps", print_steps_of)
}

/// What the texts of a folder of tests/steps give. A missing file counts as empty.
pub fn print_steps_of(folder: &Path) -> Vec<u8> {
    let file = |name: &str| std::fs::read(folder.join(name)).unwrap_or_default();
    steps(&file("database.txt"), &file("query.txt"), &file("steps.txt"))
}

/// One test a folder: `path` prints its expected.txt.
pub fn paths(folder: &Path) -> Vec<Outcome> {
    folders(folder, "path", print_path_of)
}

/// What `path` prints in a folder of tests/paths. A missing file counts as empty.
pub fn print_path_of(folder: &Path) -> Vec<u8> {
    let file = |name: &str| std::fs::read(folder.join(name)).unwrap_or_default();
    path(&file("path.txt"), &file("book.txt"))
}

fn folders(folder: &Path, kind: &str, printed: impl Fn(&Path) -> Vec<u8>) -> Vec<Outcome> {
    let Ok(entries) = std::fs::read_dir(folder) else {
        return vec![(folder.display().to_string(), Err("no such folder".to_string()))];
    };
    let mut folders: Vec<PathBuf> = entries.flatten().map(|entry| entry.path()).filter(|path| path.is_dir()).collect();
    folders.sort();
    let outcome = |path: &PathBuf| {
        let (printed, expected) = (printed(path), std::fs::read(path.join("expected.txt")).unwrap_or_default());
        let result = if printed == expected {
            Ok(String::new())
        } else {
            Err(format!("expected\n{}printed\n{}", shown(&expected), shown(&printed)))
        };
        (format!("{kind} {}", path.file_name().unwrap_or_default().to_string_lossy()), result)
    };
    folders.iter().map(outcome).collect()
}

pub fn shown(text: &[u8]) -> String {
    String::from_utf8_lossy(text).into_owned()
}

/// A line of output for each test that is worth one.
pub fn report(outcomes: &[Outcome]) -> (usize, usize) {
    let mut failed = 0;
    for (name, result) in outcomes {
        match result {
            Ok(seen) if seen.is_empty() => {}
            Ok(seen) => println!("ok {name}: {seen}"),
            Err(why) => {
                failed += 1;
                println!("FAILED {name}");
                why.lines().for_each(|line| println!("    {line}"));
            }
        }
    }
    (outcomes.len() - failed, failed)
}
