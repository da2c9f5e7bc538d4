//! Runs the tests and ends with 'N passed, M failed'. `selfcheck SEED COUNT` takes other seeds than the fixed ones.

use reference::examples::examples;
use reference::properties::{properties, Coverage};
use reference::selfcheck::{
    case_folder, cases, path_folder, paths, reading_folder, readings, report, rewritings, step_folder,
};
use std::process::ExitCode;

const SEED: u64 = 1;
const COUNT: u64 = 4000;

fn main() -> ExitCode {
    let arguments: Vec<String> = std::env::args().skip(1).collect();
    let chosen: Vec<u64> = arguments.iter().flat_map(|argument| argument.parse()).collect();
    let (seed, count) = match (arguments.len(), &chosen[..]) {
        (0, _) => (SEED, COUNT),
        (2, [seed, count]) => (*seed, *count),
        _ => {
            eprintln!("usage: selfcheck [SEED COUNT]");
            return ExitCode::from(2);
        }
    };
    let mut coverage = Coverage::default();
    let folders = cases(&case_folder());
    let read = readings(&reading_folder());
    let rewritten = rewritings(&step_folder());
    let sheets = paths(&path_folder());
    let worked = examples();
    println!(
        "{} cases, {} readings, {} lists of steps, {} paths, {} examples, {count} seeds from {seed}",
        folders.len(),
        read.len(),
        rewritten.len(),
        sheets.len(),
        worked.len()
    );
    let mut outcomes = [folders, read, rewritten, sheets, worked, properties(seed, count, &mut coverage)].concat();
    // Fewer inputs may miss a kind or a number.
    if count >= COUNT {
        outcomes.extend(coverage.outcomes());
    }
    let (passed, failed) = report(&outcomes);
    println!("{passed} passed, {failed} failed");
    ExitCode::from(u8::from(failed > 0))
}
