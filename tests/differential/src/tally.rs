//! The cases passed and failed, and what the calls met.

use crate::allowance;
use crate::branches;
use crate::call::Call;
use crate::filters;
use crate::last;
use crate::paths;
use crate::pauses;
use crate::slices::{database_of, has_last, has_mu, query_of, Slices, QUERY_ROOM};
use reference::panel;
use reference::properties::comes_home::{by_origin_alone, causes, CAUSES};
use reference::rewrite::KINDS;
use reference::value::{Refusal, NODES, NUMBERS};
use std::fmt::Debug;

/// Differences that are printed in full.
const SHOWN: u64 = 20;

/// Calls of the header that are made at the desk; those after them are the panel's.
const DESK_CALLS: usize = 10;
pub const CALLS: usize = 19;
/// The calls that meet no `mu`: those that read a path or a database.
const WITHOUT_MU: [usize; 3] = [1, 2, 11];

#[derive(Default)]
pub struct Tally {
    pub seed: u64,
    pub passed: u64,
    pub failed: u64,
    /// Accepted calls in the header's order.
    accepted: [u64; CALLS],
    /// At desk and panel: accepted rewrites by kind, refusals by number, and those of runs.
    kinds: [[u64; KINDS + 1]; 2],
    numbers: [[u64; NUMBERS + 1]; 2],
    runs: [[u64; NUMBERS + 1]; 2],
    /// Accepted calls on queries with a `mu` in the header's order, and at desk and panel the accepted rewrites of such by kind and
    /// their refusals by number.
    mus: [u64; CALLS],
    mu_kinds: [[u64; KINDS + 1]; 2],
    mu_numbers: [[u64; NUMBERS + 1]; 2],
    /// At desk and panel: rewrites by kind that are accepted though a `drop` names a column that must be stable, and refusals with
    /// 13 by what the column comes from.
    home_kinds: [[u64; KINDS + 1]; 2],
    home_causes: [[u64; CAUSES.len()]; 2],
    /// The most nodes, rows and lines run of a finished run at desk and panel.
    most: [[u32; 3]; 2],
    /// Answers with a 0 in the column that filters are put on.
    pub unknown: u64,
    /// Finished runs over a database that was read from zero bytes.
    pub empty: u64,
    pub paths: paths::Met,
    pub allowance: allowance::Met,
    pub last: last::Met,
    pub branches: branches::Met,
    pub filters: filters::Met,
    pub pauses: pauses::Met,
}

impl Tally {
    /// One case: both sides are to be equal.
    pub fn case<T: Debug + PartialEq>(&mut self, name: impl FnOnce() -> String, reference: &T, engine: &T) {
        if reference == engine {
            self.passed += 1;
            return;
        }
        self.failed += 1;
        if self.failed <= SHOWN {
            println!("FAILED seed {}: {}", self.seed, name());
            println!("    reference {reference:?}");
            println!("    engine    {engine:?}");
        }
    }

    /// A call with the slices that it was given and those that it left.
    pub fn meet(&mut self, call: Call, reply: Result<(), Refusal>, given: &Slices, slices: &Slices) {
        let sort = match call {
            Call::ReadQuery { .. } => 0,
            Call::ReadPath { .. } => 1,
            Call::ReadDatabase => 2,
            Call::Check { .. } => 3,
            Call::Rewrite { .. } => 4,
            Call::Compile { .. } => 5,
            Call::Allowance { .. } => 6,
            Call::Run { .. } => 7,
            Call::Begin { .. } => 8,
            Call::Resume { .. } => 9,
            Call::PanelReadQuery => 10,
            Call::PanelReadPath => 11,
            Call::PanelCheck => 12,
            Call::PanelRewrite { .. } => 13,
            Call::PanelCompile => 14,
            Call::PanelAllowance => 15,
            Call::PanelRun { .. } => 16,
            Call::PanelBegin { .. } => 17,
            Call::PanelResume { .. } => 18,
        };
        let at = usize::from(sort >= DESK_CALLS);
        match reply {
            Err(refusal) => self.numbers[at][refusal.number as usize] += 1,
            Ok(()) => self.accepted[sort] += 1,
        }
        if let Call::ReadPath { .. } | Call::PanelReadPath = call {
            self.paths.meet(at, call, reply, &given.text);
            return;
        }
        let reads = matches!(call, Call::ReadQuery { .. } | Call::PanelReadQuery);
        let query = if reads { &slices.query } else { &given.query };
        if has_mu(query) {
            self.meet_mu(call, sort, at, reply);
        }
        // The slice of a refused text, or one below its room, holds no query.
        let held = query.len() >= QUERY_ROOM && (reply.is_ok() || !reads);
        if held && has_last(query) {
            self.last.meet(at, sort, call, reply, given);
        }
        if let Call::Rewrite { kind, node, .. } | Call::PanelRewrite { kind, node } = call {
            self.meet_stability(at, reply, given, (kind, node));
        }
        match (reply, call) {
            (Ok(()), Call::Rewrite { kind, .. } | Call::PanelRewrite { kind, .. }) => {
                self.kinds[at][kind as usize] += 1;
            }
            (Ok(()), Call::Run { .. } | Call::PanelRun { .. }) => {
                let finished = [slices.query[0], slices.told[1], slices.told[2]];
                self.most[at] = [0, 1, 2].map(|index| self.most[at][index].max(finished[index]));
            }
            (Err(refusal), Call::Run { .. } | Call::PanelRun { .. }) => {
                self.runs[at][refusal.number as usize] += 1;
            }
            (_, Call::Allowance { .. } | Call::PanelAllowance) => self.allowance.meet(at, call, reply, given),
            (_, Call::Begin { .. } | Call::PanelBegin { .. }) => self.pauses.begun(at, reply, given),
            (_, Call::Resume { .. } | Call::PanelResume { .. }) => self.pauses.resumed(at, reply, given),
            _ => {}
        }
    }

    fn meet_mu(&mut self, call: Call, sort: usize, at: usize, reply: Result<(), Refusal>) {
        match (reply, call) {
            (Err(refusal), _) => self.mu_numbers[at][refusal.number as usize] += 1,
            (Ok(()), Call::Rewrite { kind, .. } | Call::PanelRewrite { kind, .. }) => {
                self.mus[sort] += 1;
                self.mu_kinds[at][kind as usize] += 1;
            }
            _ => self.mus[sort] += 1,
        }
    }

    fn meet_stability(&mut self, at: usize, reply: Result<(), Refusal>, given: &Slices, (kind, node): (u32, u32)) {
        let taken = || (database_of(&given.database, &given.store), query_of(&given.query, NODES));
        match reply {
            Ok(()) => {
                let (database, query) = taken();
                self.home_kinds[at][kind as usize] += u64::from(by_origin_alone(&database, &query, kind, node));
            }
            Err(Refusal { number: 13, .. }) => {
                let (database, query) = taken();
                for (times, met) in self.home_causes[at].iter_mut().zip(causes(&database, &query, kind, node)) {
                    *times += u64::from(met);
                }
            }
            Err(_) => {}
        }
    }

    pub fn print_met(&self) {
        println!("accepted by call {:?}", self.accepted);
        for (at, name) in ["desk", "panel"].into_iter().enumerate() {
            let (kinds, numbers, runs) = (&self.kinds[at][1..], &self.numbers[at][1..], &self.runs[at][1..]);
            println!("{name}: rewrites by kind {kinds:?}, refused by number {numbers:?}, of these runs {runs:?}");
            let [nodes, rows, ran] = self.most[at];
            println!("{name}: finished runs of up to {nodes} nodes, {rows} rows and {ran} lines run");
        }
        println!("with a mu: accepted by call {:?}", self.mus);
        for (at, name) in ["desk", "panel"].into_iter().enumerate() {
            let (kinds, numbers) = (&self.mu_kinds[at][1..], &self.mu_numbers[at][1..]);
            println!("{name}, with a mu: rewrites by kind {kinds:?}, refused by number {numbers:?}");
        }
        for (at, name) in ["desk", "panel"].into_iter().enumerate() {
            let (kinds, causes) = (&self.home_kinds[at][1..], &self.home_causes[at]);
            println!("{name}, stable by origin alone: rewrites by kind {kinds:?}, 13 by cause {CAUSES:?} {causes:?}");
        }
        println!("filters over a column that holds 0: {}", self.unknown);
        println!("finished runs over a database read from zero bytes: {}", self.empty);
        self.paths.print();
        self.allowance.print();
        self.last.print();
        self.branches.print();
        self.filters.print();
        self.pauses.print();
    }

    /// A case of its own: every call was accepted and at desk and panel every kind; every number was given, 16 never at the
    /// panel; runs were refused over each limit, and at the panel some finished with the most nodes and rows; filters met 0, and
    /// runs finished over a book of zero bytes. Queries with a `mu` met every call but those that read a path or a database and
    /// every kind, 20 at both, and 3 to 10 at one or the other. Columns came home under every kind that asks for stable ones, and
    /// 13 had every cause at desk and panel. Paths, products, last issues, two branches, filters past ordinary lines and pauses met
    /// what they had to.
    pub fn all_met(&mut self) {
        let accepted = self.accepted.iter().chain(self.kinds.iter().flat_map(|kinds| &kinds[1..]));
        let given = self.numbers[0][1..].iter();
        let refused = self.runs.iter().flat_map(|runs| [2, 17, 18, 19].map(|number| &runs[number]));
        let mus = self.mus.iter().enumerate().filter(|(sort, _)| !WITHOUT_MU.contains(sort)).map(|(_, times)| times);
        let mu_kinds = self.mu_kinds.iter().flat_map(|kinds| &kinds[1..]);
        let [at_desk, at_panel] = &self.mu_numbers;
        let mu_numbers =
            (3..=10).all(|number| at_desk[number] + at_panel[number] > 0) && at_desk[20] > 0 && at_panel[20] > 0;
        let homes = self.home_kinds.iter().flat_map(|kinds| [1, 2, 3, 4, 6].map(|kind| &kinds[kind]));
        let homes = homes.chain(self.home_causes.iter().flatten());
        let met = accepted.chain(given).chain(refused).chain(mus).chain(mu_kinds).chain(homes).all(|times| *times > 0);
        let most = self.most[1][..2] == [panel::NODES as u32, panel::ROW_LIMIT];
        let zeros = self.unknown > 0 && self.empty > 0;
        let requests = self.paths.all_met() && self.allowance.all_met();
        let later = self.last.all_met() && self.branches.all_met() && self.filters.all_met() && self.pauses.all_met();
        if met && mu_numbers && self.numbers[1][16] == 0 && most && zeros && requests && later {
            self.passed += 1;
        } else {
            println!(
                "FAILED every call and kind is accepted, every number given, every limit, 0 under filters, an empty book, mu, \
                columns that come home, paths, products, last issues, two branches, filters past lines and pauses met"
            );
            self.failed += 1;
        }
    }
}
