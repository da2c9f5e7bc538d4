//! Property paths: their texts over books, and of an accepted one the check and the run, whose rows are the path's links.

use crate::at::At;
use crate::call::Call;
use crate::compared;
use crate::inputs::{harm, lent, run};
use crate::slices::{bits_of, database_of, flat_database, query_of, Slices, DATABASE_ROOM, QUERY_ROOM, TABLE};
use crate::tally::Tally;
use reference::algebra::{Columns, Relation, Row};
use reference::damage;
use reference::fronts::BYTES;
use reference::panel;
use reference::paths::{Links, Path};
use reference::random::paths::{
    database, fewest, linking, names, needless, nested, padded, past_a_power, path, path_of, text_of,
};
use reference::random::Random;
use reference::value::{slots_of, Database, Refusal, COLUMNS, NODES, NUMBERS, TABLES};

/// A path of more nodes has to be met.
const MANY: u128 = 1 << 40;

/// What calls that read a path have met, each at desk and panel.
#[derive(Default)]
pub struct Met {
    /// Refusals by number, and 21 at the first byte, in the middle, after the end and at byte 129.
    numbers: [[u64; NUMBERS + 1]; 2],
    places: [[u64; 4]; 2],
    /// Accepted paths of 128 bytes, and refused ones of more.
    longest: [[u64; 2]; 2],
    /// Accepted paths of as many nodes as the limit, and those that get 2 for one node more.
    limits: [[u64; 2]; 2],
    /// The most nodes of an accepted path, and of one that gets 2.
    most: [[u128; 2]; 2],
    /// Signs of accepted paths: alternatives, sequences, inverses, pluses of another sign or a name, and pluses of a plus.
    signs: [[u64; 5]; 2],
    /// Finished runs, and those of them with rows.
    linked: [[u64; 2]; 2],
}

impl Met {
    pub fn meet(&mut self, at: usize, call: Call, reply: Result<(), Refusal>, text: &[u8]) {
        if let Err(refusal) = reply {
            self.numbers[at][refusal.number as usize] += 1;
            if refusal.number == 21 {
                self.off_the_grammar(at, text, refusal.place as usize);
            }
        }
        let limit = match call {
            Call::ReadPath { limit } => limit.min(NODES),
            _ => panel::NODES,
        };
        let Some(path) = Path::read(text) else {
            return;
        };
        let nodes = path.nodes();
        let [accepted, refused] = &mut self.longest[at];
        let [exact, one_more] = &mut self.limits[at];
        match reply {
            Ok(()) => {
                *accepted += u64::from(text.len() == BYTES);
                *exact += u64::from(nodes == limit as u128);
                self.most[at][0] = self.most[at][0].max(nodes);
                self.accepted(at, &path);
            }
            Err(Refusal { number: 2, .. }) => {
                *one_more += u64::from(nodes == limit as u128 + 1);
                self.most[at][1] = self.most[at][1].max(nodes);
            }
            Err(_) => *refused += u64::from(text.len() > BYTES),
        }
    }

    fn accepted(&mut self, at: usize, path: &Path) {
        for part in path.parts() {
            let sign = match part {
                Path::Name(_) => continue,
                Path::Alternative(..) => 0,
                Path::Sequence(..) => 1,
                Path::Inverse(_) => 2,
                Path::Plus(operand) => 3 + usize::from(matches!(**operand, Path::Plus(_))),
            };
            self.signs[at][sign] += 1;
        }
    }

    fn off_the_grammar(&mut self, at: usize, text: &[u8], place: usize) {
        let sort = match place {
            _ if place == BYTES + 1 => 3,
            _ if place > text.len() => 2,
            1 => 0,
            _ => 1,
        };
        self.places[at][sort] += 1;
    }

    pub fn print(&self) {
        for (at, name) in ["desk", "panel"].into_iter().enumerate() {
            let (numbers, places, signs) = (&self.numbers[at][1..], self.places[at], self.signs[at]);
            println!(
                "{name}, paths: refused by number {numbers:?}, 21 by place {places:?}, signs of accepted ones {signs:?}"
            );
            let ([bytes, more], [exact, one_more]) = (self.longest[at], self.limits[at]);
            println!(
                "{name}, paths: of 128 bytes and more {bytes} and {more}, of the limit's nodes and one more {exact} and {one_more}"
            );
            let ([sheet, refused], [runs, rows]) = (self.most[at], self.linked[at]);
            println!(
                "{name}, paths: sheets of up to {sheet} nodes, 2 of up to {refused}, {runs} runs, {rows} of them with rows"
            );
        }
    }

    pub fn all_met(&self) -> bool {
        let numbers = self.numbers.iter().flat_map(|numbers| [2, 9, 10, 11, 17, 21].map(|number| &numbers[number]));
        let pairs = [&self.longest, &self.limits, &self.linked].into_iter().flatten().flatten();
        let counts = self.places.iter().flatten().chain(self.signs.iter().flatten()).chain(pairs).chain(numbers);
        let [[desk, refused], [at_panel, refused_at_panel]] = self.most;
        let most = [desk, at_panel] == [NODES as u128, panel::NODES as u128];
        most && refused > MANY && refused_at_panel > MANY && counts.into_iter().all(|times| *times > 0)
    }
}

/// Texts over a schema: any path, one of about as many nodes as are taken, one with edits, one of about 128 bytes, and now and
/// then any path in about 128 bytes, pluses in each other, other bytes and longer texts.
pub fn texts_of_paths(random: &mut Random, at: At, schema: &[Columns]) -> Vec<Vec<u8>> {
    let (names, signs) = (names(random, schema), random.below(9));
    let any = path(random, &names, signs);
    let linking = linking(schema);
    let about = at.nodes() as u128 - 1 + random.below(4) as u128;
    let exact = path_of(random, if linking.is_empty() { &names } else { &linking }, about);
    let (length, whole) = (BYTES - 1 + random.below(4), random.once_in(2));
    let long = text_of(random, length, whole);
    let text = needless(random, &any);
    let harmed = damage::path(random, &text);
    let mut found = vec![text, fewest(&exact), harmed, within(&long, schema)];
    match random.below(8) {
        0 if random.once_in(2) => found.push(fewest(&nested(0, random.below(44)))),
        0 => found.push(fewest(&past_a_power(random, 0))),
        1..=3 => found.push(padded(&any, BYTES + random.below(3))),
        4 => found.push(damage::path(random, &long)),
        5 => found.push(random.fill(3).into_iter().flat_map(u32::to_le_bytes).take(random.below(9)).collect()),
        6 => {
            let (length, whole) = (BYTES + 1 + random.below(300), random.once_in(2));
            found.push(text_of(random, length, whole));
        }
        _ => {}
    }
    found
}

/// A long text whose names are tables of the schema with the columns 0 and 1 only, as far as there are such of as many digits.
fn within(text: &[u8], schema: &[Columns]) -> Vec<u8> {
    let linking = linking(schema);
    let mut found = text.to_vec();
    let mut at = 0;
    while at < found.len() {
        let digits = found[at..].iter().take_while(|byte| byte.is_ascii_digit()).count();
        let fitting = linking.iter().map(u8::to_string).find(|name| name.len() == digits);
        if let Some(name) = fitting {
            found[at..at + digits].copy_from_slice(name.as_bytes());
        }
        at += digits.max(1);
    }
    found
}

/// At, below and above the nodes of a path.
fn limit(random: &mut Random, text: &[u8]) -> usize {
    let nodes = Path::read(text).map_or(NODES, |path| path.nodes() as usize);
    match random.below(9) {
        0 | 1 => nodes,
        2 => nodes - 1,
        3 => nodes + 1,
        4 => random.below(NODES),
        5 => [0, NODES + 1, usize::MAX][random.below(3)],
        _ => NODES,
    }
}

/// A database as lent, now and then off its form.
fn book(random: &mut Random, database: &Database) -> Slices {
    let off = random.once_in(8).then(|| damage::database(random, database).0);
    let database = off.as_ref().unwrap_or(database);
    let mut flat = lent(random, &flat_database(database), DATABASE_ROOM);
    if random.once_in(12) {
        harm(random, &mut flat, 1 + TABLE * database.tables.min(TABLES) as usize);
    }
    Slices { database: flat, store: database.store.clone(), ..Slices::default() }
}

pub fn cases(random: &mut Random, tally: &mut Tally) {
    for at in At::BOTH {
        let database = database(random);
        for text in texts_of_paths(random, at, database.schema()) {
            let call = match at {
                At::Desk => Call::ReadPath { limit: limit(random, &text) },
                At::Panel => Call::PanelReadPath,
            };
            let given = Slices { text, query: lent(random, &[], QUERY_ROOM), ..book(random, &database) };
            if let Some(read) = compared(tally, call, &given) {
                runs(random, tally, at, read);
            }
        }
    }
}

/// Runs of a path until one finishes: its limits may be too low, its slices short.
const RUNS: usize = 4;

/// The check and the run of the query that an accepted path left.
fn runs(random: &mut Random, tally: &mut Tally, at: At, read: Slices) {
    let (database, query) = (database_of(&read.database, &read.store), query_of(&read.query, NODES));
    let Some(path) = Path::read(&read.text) else {
        return;
    };
    let check = at.check(random, query.count as usize);
    compared(tally, check, &read);
    let rows = rows_of(&path.links(&database.relations()));
    let due = (bits_of(&Columns::from([0, 1])), rows.len() as u32, slots_of(&rows));
    for _ in 0..RUNS {
        let (call, lent) = run(random, at, &query, &database, read.clone());
        if let Some(left) = compared(tally, call, &lent) {
            let slots = left.answer.iter().take(COLUMNS * left.told[1] as usize);
            let found = (left.told[0], left.told[1], slots.copied().collect());
            tally.case(|| format!("{call:?}: the links of {:?} over {database:?}", left.text), &due, &found);
            let [runs, with_rows] = &mut tally.paths.linked[at as usize];
            *runs += 1;
            *with_rows += u64::from(!rows.is_empty());
            break;
        }
    }
}

fn rows_of(links: &Links) -> Relation {
    links.iter().map(|(from, to)| Row::from([(0, *from), (1, *to)])).collect()
}
