//! Compares the engine with the reference, call by call: `differential SEED COUNT` on the inputs of COUNT seeds from SEED
//! on. A case is one call: the reply and all lent slices afterwards, the rows of a path's run beside what the path links, the
//! lines of a run beside the product, steps on two branches beside the same in another order, the rows after a list of steps beside
//! those before it, or a run in parts beside one run. A difference prints its seed and both sides. Then texts of at most one byte, the rows and lines run of each workload of bench/, lines of every code, a `last` over
//! 4,096 rows, and texts with each byte at each place. The last line is 'N passed, M failed'.

mod allowance;
mod at;
mod branches;
mod call;
mod filters;
mod inputs;
mod last;
mod measured;
mod paths;
mod pauses;
mod slices;
mod sweep;
mod tally;
mod wrapper;

use call::Call;
use inputs::Input;
use reference::random::Random;
use reference::value::Refusal;
use slices::Slices;
use std::process::ExitCode;
use tally::Tally;

const SEED: u64 = 1;
const COUNT: u64 = 1500;

/// What a call replies, and the slices that it left.
type Made = (Result<(), Refusal>, Slices);

/// One case: what the reference makes of a call and what the engine does.
fn made(tally: &mut Tally, call: Call, before: &Slices) -> (Made, Made) {
    let (mut due, mut left) = (before.clone(), before.clone());
    let expected = call.by_reference(&mut due);
    let replied = call.by_engine(&mut left);
    tally.meet(call, expected, before, &due);
    let (expected, found) = ((expected, due), (replied, left));
    tally.case(|| format!("{call:?} of {before:?}"), &expected, &found);
    (expected, found)
}

/// One case: the slices that the engine left if both sides accept, else a refusal.
fn replied(tally: &mut Tally, call: Call, before: &Slices) -> Result<Slices, Refusal> {
    let ((expected, _), (replied, left)) = made(tally, call, before);
    expected.and(replied).map(|()| left)
}

/// One case: the slices that the engine left, if both sides accept.
fn compared(tally: &mut Tally, call: Call, before: &Slices) -> Option<Slices> {
    replied(tally, call, before).ok()
}

fn calls(tally: &mut Tally, inputs: Vec<Input>) {
    for (call, before) in inputs {
        compared(tally, call, &before);
    }
}

fn main() -> ExitCode {
    let arguments: Vec<String> = std::env::args().skip(1).collect();
    let chosen: Vec<u64> = arguments.iter().flat_map(|argument| argument.parse()).collect();
    let (seed, count) = match (arguments.len(), &chosen[..]) {
        (0, _) => (SEED, COUNT),
        (2, [seed, count]) => (*seed, *count),
        _ => {
            eprintln!("usage: differential [SEED COUNT]");
            return ExitCode::from(2);
        }
    };
    let mut tally = Tally::default();
    for seed in seed..seed.saturating_add(count) {
        tally.seed = seed;
        calls(&mut tally, inputs::inputs(&mut Random::new(seed)));
        paths::cases(&mut Random::new(seed), &mut tally);
        allowance::cases(&mut Random::new(seed), &mut tally);
        last::cases(&mut Random::new(seed), &mut tally);
        branches::cases(&mut Random::new(seed), &mut tally);
        filters::cases(&mut Random::new(seed), &mut tally);
        pauses::cases(&mut Random::new(seed), &mut tally);
        wrapper::cases(&mut Random::new(seed), &mut tally);
    }
    calls(&mut tally, inputs::shortest(&mut Random::new(seed)));
    wrapper::shortest(&mut tally);
    measured::cases(&mut tally);
    last::flat_lines(&mut tally);
    last::measured(&mut tally);
    tally.print_met();
    // Fewer inputs may miss a kind or a number.
    if count >= COUNT {
        tally.all_met();
    }
    // What has to be met is met without the sweep.
    sweep::cases(&mut tally);
    println!("{} passed, {} failed", tally.passed, tally.failed);
    ExitCode::from(u8::from(tally.failed > 0))
}
