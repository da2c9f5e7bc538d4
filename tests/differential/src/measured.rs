//! The workloads of bench/, which have more rows than random inputs: the same rows and lines run.

use crate::tally::Tally;
use bench::engines::{Engine, Reference};
use bench::workloads::{chains, workloads};

pub fn cases(tally: &mut Tally) {
    for workload in workloads().into_iter().chain(chains().into_iter().flat_map(|(_, asked)| asked)) {
        let (mut engine, mut reference) = (Engine::new(&workload), Reference::new(&workload));
        engine.run();
        reference.run();
        tally.case(|| workload.name, &reference.found(), &engine.found());
    }
}
