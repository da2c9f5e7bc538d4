//! Two editors on two branches: two steps at nodes of which neither lies under the other, in both orders, and two lists of such steps
//! by two turns. Each call is compared with the reference, and the engine's replies and slices with its own in the other order.

use crate::at::At;
use crate::inputs::{damaged, for_desk, for_panel, over};
use crate::made;
use crate::slices::{database_of, has_mu, query_of, Slices, DATABASE_ROOM, QUERY_ROOM};
use crate::tally::Tally;
use reference::check::check;
use reference::panel;
use reference::random::branches::{self, lists, pair, turns, Step};
use reference::random::{self, Random};
use reference::value::{Database, Query, Refusal, NODES};

/// Pairs of steps that are made of a query.
const PAIRS: usize = 3;
/// The most nodes of a query of two branches at desk and panel, there sometimes too many.
const MOST: [usize; 2] = [64, panel::NODES + 2];

/// What steps on two branches have met, each at desk and panel.
#[derive(Default)]
pub struct Met {
    /// Both accepted, one of them and none on a checked query.
    pairs: [[u64; 3]; 2],
    /// Accepted by kind beside a refused one.
    beside: [[u64; 7]; 2],
    /// Both accepted, by the lower kind and the higher, at desk and panel together.
    kinds: [[u64; 7]; 7],
    /// An accepted one beside 12 to 15.
    numbers: [[u64; 4]; 2],
    /// Both accepted and one of them on a query with a `mu`.
    mus: [[u64; 2]; 2],
    /// Both refused for the query, for the database and for a short slice.
    refused: [[u64; 3]; 2],
    /// Lists with accepted steps on both sides; with several on both, at desk and panel together.
    lists: [u64; 2],
    several: u64,
}

impl Met {
    fn pair(&mut self, at: At, steps: [Step; 2], replies: [Result<(), Refusal>; 2], given: &Slices) {
        let at = at as usize;
        let with_mu = u64::from(has_mu(&given.query));
        let [one, other] = steps.map(|(kind, _)| kind as usize);
        match replies {
            [Ok(()), Ok(())] => {
                self.pairs[at][0] += 1;
                self.kinds[one.min(other)][one.max(other)] += 1;
                self.mus[at][0] += with_mu;
            }
            [Ok(()), Err(refusal)] => self.one_accepted(at, one, refusal, with_mu),
            [Err(refusal), Ok(())] => self.one_accepted(at, other, refusal, with_mu),
            [Err(refusal), Err(_)] => match refusal.number {
                12..=15 => self.pairs[at][2] += 1,
                11 => self.refused[at][1] += 1,
                17 => self.refused[at][2] += 1,
                _ => self.refused[at][0] += 1,
            },
        }
    }

    fn one_accepted(&mut self, at: usize, kind: usize, refusal: Refusal, with_mu: u64) {
        self.pairs[at][1] += 1;
        self.beside[at][kind] += 1;
        self.mus[at][1] += with_mu;
        let number = (refusal.number as usize).checked_sub(12);
        if let Some(times) = number.and_then(|number| self.numbers[at].get_mut(number)) {
            *times += 1;
        }
    }

    pub fn print(&self) {
        for (at, name) in ["desk", "panel"].into_iter().enumerate() {
            let ([both, one, none], [query, database, short]) = (self.pairs[at], self.refused[at]);
            println!(
                "{name}, two branches: {both} both accepted, {one} one, {none} none, refused for the query {query}, for the database \
                {database}, for a short slice {short}"
            );
            let (beside, numbers, mus) = (&self.beside[at][1..], self.numbers[at], self.mus[at]);
            let lists = self.lists[at];
            println!(
                "{name}, two branches: accepted by kind beside a refused one {beside:?}, beside 12 to 15 {numbers:?}, with a mu {mus:?}, lists \
                accepted on both {lists}"
            );
        }
        let (kinds, several) = (self.each_two().collect::<Vec<_>>(), self.several);
        println!("two branches: both accepted by kinds {kinds:?}, lists with several accepted on both {several}");
    }

    /// Of each two kinds, the lower first.
    fn each_two(&self) -> impl Iterator<Item = &[u64]> {
        (1..7).map(|kind| &self.kinds[kind][kind..])
    }

    /// Everything at desk and panel; each two kinds, and lists with several accepted steps on both sides, at one or the other.
    pub fn all_met(&self) -> bool {
        let kinds = self.each_two().flatten().chain(self.beside.iter().flat_map(|kinds| &kinds[1..]));
        let pairs = self.pairs.iter().chain(&self.refused).flatten().chain(self.numbers.iter().flatten());
        let others = self.mus.iter().flatten().chain(&self.lists).chain([&self.several]);
        kinds.chain(pairs).chain(others).all(|times| *times > 0)
    }
}

/// A query of two branches, now and then any of the desk's or of the panel's.
fn input(random: &mut Random, at: At) -> (Database, Query) {
    if !random.once_in(6) {
        let database = random::database(random);
        let query = branches::query(random, database.schema(), MOST[at as usize]);
        return (database, query);
    }
    match at {
        At::Desk => for_desk(random),
        At::Panel => for_panel(random),
    }
}

pub fn cases(random: &mut Random, tally: &mut Tally) {
    for at in At::BOTH {
        let (database, query) = input(random, at);
        for _ in 0..PAIRS {
            let steps = pair(random, database.schema(), &query);
            let given = over(random, &query, &database);
            in_both_orders(random, tally, at, steps, &given);
        }
        let harmed = damaged(random, &query, &database);
        // A short slice holds nothing: any two steps.
        let steps = pair_of(random, &harmed).unwrap_or([(1, 1), (2, 2)]);
        in_both_orders(random, tally, at, steps, &harmed);
        by_turns(random, tally, at, &database, &query);
    }
}

/// Two steps on whatever the slices hold, if they have their room.
fn pair_of(random: &mut Random, given: &Slices) -> Option<[Step; 2]> {
    let room = given.query.len() >= QUERY_ROOM && given.database.len() >= DATABASE_ROOM;
    let taken = || (database_of(&given.database, &given.store), query_of(&given.query, NODES));
    let (database, query) = room.then(taken)?;
    Some(pair(random, database.schema(), &query))
}

/// What steps with one node limit leave, one after another, and what the engine replies to each.
fn in_turn(
    tally: &mut Tally,
    (at, limit): (At, usize),
    steps: impl IntoIterator<Item = Step>,
    given: &Slices,
) -> (Slices, Vec<Result<(), Refusal>>) {
    let mut left = given.clone();
    let step = |step| {
        let (_, (reply, slices)) = made(tally, at.rewrite_within(limit, step), &left);
        left = slices;
        reply
    };
    let replies = steps.into_iter().map(step).collect();
    (left, replies)
}

/// Each replies after the other as before it, and both orders leave one slice.
fn in_both_orders(random: &mut Random, tally: &mut Tally, at: At, steps: [Step; 2], given: &Slices) {
    let nodes = given.query.first().map_or(0, |count| *count as usize);
    let place = (at, at.limit(random, nodes));
    let (one, replies) = in_turn(tally, place, steps, given);
    let (other, swapped) = in_turn(tally, place, steps.into_iter().rev(), given);
    let told = |what: &str| format!("{what} of {steps:?} at {place:?} in both orders on {given:?}");
    let (before, after) = ([replies[0], swapped[0]], [swapped[1], replies[1]]);
    tally.case(|| told("replies"), &before, &after);
    tally.case(|| told("ends"), &one, &other);
    tally.branches.pair(at, steps, before, given);
}

/// Two lists by two turns: each step replies alike, and both leave one slice.
fn by_turns(random: &mut Random, tally: &mut Tally, at: At, database: &Database, query: &Query) {
    let lists =
        check(query, database.schema()).ok().and_then(|checked| lists(random, database.schema(), query, &checked));
    let Some(lists) = lists else { return };
    let given = over(random, query, database);
    let place = (at, at.limit(random, query.lines().len()));
    let mut made = || {
        let turns = turns(random, &lists);
        let (left, replies) = in_turn(tally, place, turns.iter().map(|(_, step)| *step), &given);
        let of = |side: usize| turns.iter().zip(&replies).filter(move |((of, _), _)| *of == side);
        ([0, 1].map(|side| of(side).map(|(_, reply)| *reply).collect::<Vec<_>>()), left)
    };
    let (one, other) = (made(), made());
    tally.case(|| format!("{lists:?} at {place:?} by two turns on {given:?}"), &one, &other);
    let accepted = one.0.iter().map(|replies| replies.iter().filter(|reply| reply.is_ok()).count());
    let fewest = accepted.min().unwrap_or(0);
    tally.branches.lists[at as usize] += u64::from(fewest > 0);
    tally.branches.several += u64::from(fewest > 1);
}
