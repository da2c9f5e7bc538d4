//! `measure SECONDS` times the engine, the reference and SQLite, about so long a workload: the same rows first, then rounds in
//! which each takes its turn; the least time counts. Then runs that are put aside against one run, and the test of a pause. Writes a line of
//! fields with tabs between for each workload.

mod sqlite;

use bench::engines::{Engine, Reference};
use bench::workloads::{chains, doubling, longest, workloads, Workload};
use capeshard::COLUMNS;
use sqlite::Sqlite;
use std::process::ExitCode;
use std::time::{Duration, Instant};

/// At least so many rounds, and so long a sample: short runs are repeated within it.
const ROUNDS: usize = 7;
const SAMPLE: Duration = Duration::from_millis(2);

/// Runs are put aside each time so many lines are run, those that run at least so many.
const LINES: u32 = 100;
const LONG: u32 = 125;

struct Timed<'a> {
    run: Box<dyn FnMut() + 'a>,
    repeats: u32,
    least: Duration,
}

impl<'a> Timed<'a> {
    fn new(mut run: impl FnMut() + 'a) -> Timed<'a> {
        let start = Instant::now();
        run();
        let once = start.elapsed().max(Duration::from_nanos(1));
        let repeats = (SAMPLE.as_nanos() / once.as_nanos()).clamp(1, 10_000) as u32;
        Timed { run: Box::new(run), repeats, least: Duration::MAX }
    }

    fn sample(&mut self) {
        let start = Instant::now();
        for _ in 0..self.repeats {
            (self.run)();
        }
        self.least = self.least.min(start.elapsed() / self.repeats);
    }
}

/// The least time of each in rounds that take so long together.
fn least<const N: usize>(mut timed: [Timed; N], seconds: f64) -> [u128; N] {
    let start = Instant::now();
    let mut rounds = 0;
    while rounds < ROUNDS || start.elapsed().as_secs_f64() < seconds {
        timed.iter_mut().for_each(Timed::sample);
        rounds += 1;
    }
    timed.map(|timed| timed.least.as_nanos())
}

struct Sides {
    engine: Engine,
    reference: Reference,
    plain: Sqlite,
    indexed: Sqlite,
}

/// All sides of a workload, once they have given the same rows.
fn agreed(workload: &Workload) -> Sides {
    let (mut engine, mut reference) = (Engine::new(workload), Reference::new(workload));
    engine.run();
    reference.run();
    let due = reference.found();
    assert_eq!(engine.found(), due, "{}", workload.name);
    let columns: Vec<usize> = (0..COLUMNS).filter(|column| engine.columns() >> column & 1 == 1).collect();
    let mut sqlite = [false, true].map(|indexed| Sqlite::new(workload, &columns, indexed));
    for sqlite in &mut sqlite {
        sqlite.run();
        assert_eq!(sqlite.rows(), due.rows, "{}", workload.name);
    }
    let [plain, indexed] = sqlite;
    Sides { engine, reference, plain, indexed }
}

fn workload_line(workload: &Workload, seconds: f64) {
    let Sides { mut engine, mut reference, mut plain, mut indexed } = agreed(workload);
    let (found, touched) = (engine.found(), reference.touched());
    let timed = [
        Timed::new(|| engine.run()),
        Timed::new(|| reference.run()),
        Timed::new(|| plain.run()),
        Timed::new(|| indexed.run()),
    ];
    let [engine, reference, plain, indexed] = least(timed, seconds);
    let Workload { name, recursive, .. } = workload;
    let (rows, ran) = (found.rows.len(), found.ran);
    println!("workload\t{name}\t{recursive}\t{rows}\t{ran}\t{touched}\t{engine}\t{reference}\t{plain}\t{indexed}");
}

fn chain_line(length: u32, asked: &[Workload; 2], seconds: f64) {
    let [outside, pushed] = asked.each_ref().map(agreed);
    let (mut first, mut second) = (outside.engine, pushed.engine);
    let [outside, pushed] = least([Timed::new(|| first.run()), Timed::new(|| second.run())], seconds);
    let rows = length * (length + 1) / 2;
    println!("chain\t{length}\t{rows}\t{outside}\t{pushed}");
}

/// A run that is put aside and gone on with against the ordinary one.
fn parts_line(workload: &Workload, seconds: f64) {
    let (mut once, mut parts) = (Engine::new(workload), Engine::new(workload));
    once.run();
    let ran = once.found().ran;
    if ran < LONG {
        return;
    }
    let pauses = parts.run_in_parts(LINES);
    assert_eq!(parts.found(), once.found(), "{}", workload.name);
    let timed = [
        Timed::new(|| once.run()),
        Timed::new(|| {
            parts.run_in_parts(LINES);
        }),
    ];
    let [once, parts] = least(timed, seconds);
    let Workload { name, limit, .. } = workload;
    println!("parts\t{name}\t{limit}\t{ran}\t{pauses}\t{once}\t{parts}");
}

/// The test of a pause that a run gave in the middle and of one with full registers, no line being run.
fn test_line(workload: &Workload, seconds: f64) {
    let (mut given, mut full, reference) = (Engine::new(workload), Engine::new(workload), Reference::new(workload));
    given.put_aside(2 * LINES);
    full.hold(reference.full());
    let entries = given.entries();
    let [given, full] = least([Timed::new(|| given.test()), Timed::new(|| full.test())], seconds);
    println!("test\t{}\t{entries}\t{given}\t{full}", workload.limit);
}

fn main() -> ExitCode {
    let seconds = match std::env::args().skip(1).collect::<Vec<_>>()[..] {
        [ref seconds] => seconds.parse().ok(),
        _ => None,
    };
    let Some(seconds) = seconds else {
        eprintln!("usage: measure SECONDS");
        return ExitCode::from(2);
    };
    println!("sqlite\t{}", sqlite::version());
    for workload in workloads() {
        workload_line(&workload, seconds);
    }
    for (length, asked) in chains() {
        chain_line(length, &asked, seconds / 4.0);
    }
    for workload in workloads().into_iter().chain(longest()) {
        parts_line(&workload, seconds / 2.0);
    }
    for workload in doubling() {
        test_line(&workload, seconds / 2.0);
    }
    ExitCode::SUCCESS
}
