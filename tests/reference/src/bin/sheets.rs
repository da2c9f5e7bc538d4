//! Writes random checked sheets as folders FOLDER/SEED, FOLDER/SEED+1, ... with sheet.txt, book.txt and steps.txt, as the
//! program `answer` reads them. The steps are random ones that are accepted one after another. Every other book without tables
//! has zero bytes.

use reference::answer::NODES;
use reference::random::{self, filters, Random};
use reference::rewrite::rewrite;
use reference::text::{print_database, print_query, print_steps};
use std::path::Path;
use std::process::ExitCode;

/// Lists of steps that are tried on a sheet.
const ROUNDS: usize = 8;

fn write(folder: &Path, seed: u64) -> std::io::Result<()> {
    let random = &mut Random::new(seed);
    let database = random::database(random);
    // Half of the sheets have filters over ordinary lines.
    let sheet = if random.once_in(2) { random::query } else { filters::query };
    let query = sheet(random, database.schema(), NODES);
    let mut held = query.clone();
    let mut accepted = Vec::new();
    for _ in 0..ROUNDS {
        for (kind, node) in random::steps(random, &held) {
            if let Ok(rewritten) = rewrite(&database, &held, kind, node) {
                held = rewritten;
                accepted.push((kind, node));
            }
        }
    }
    std::fs::create_dir_all(folder)?;
    std::fs::write(folder.join("sheet.txt"), print_query(&query))?;
    let empty = database.tables == 0 && seed % 2 == 0;
    std::fs::write(folder.join("book.txt"), if empty { Vec::new() } else { print_database(&database) })?;
    std::fs::write(folder.join("steps.txt"), print_steps(&accepted))
}

fn main() -> ExitCode {
    let arguments: Vec<String> = std::env::args().skip(1).collect();
    let [seed, count, folder] = &arguments[..] else {
        eprintln!("usage: sheets SEED COUNT FOLDER");
        return ExitCode::from(2);
    };
    let (Ok(seed), Ok(count)) = (seed.parse::<u64>(), count.parse::<u64>()) else {
        eprintln!("SEED and COUNT are numbers");
        return ExitCode::from(2);
    };
    for seed in seed..seed.saturating_add(count) {
        if let Err(error) = write(&Path::new(folder).join(seed.to_string()), seed) {
            eprintln!("{seed}: {error}");
            return ExitCode::FAILURE;
        }
    }
    ExitCode::SUCCESS
}
