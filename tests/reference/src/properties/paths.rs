//! Property paths: their texts and the place of 21, the sheet beside what a path links, the order of the refusals, and limits.

use super::{ensure, outcome, Coverage, Verdict, MOST};
use crate::algebra::{Columns, Relation, Row};
use crate::answer::{FILE_BYTES, STORED_ROWS};
use crate::check::check;
use crate::damage;
use crate::fronts::{longest, place};
use crate::meaning::meaning_of;
use crate::panel;
use crate::path::path as print_path;
use crate::paths::{read_path, Links, Path};
use crate::plan::{execute, plan};
use crate::random::paths::{
    database, fewest, linking, names, needless, nested, padded, past_a_power, path, path_of, path_within, text_of,
};
use crate::random::Random;
use crate::selfcheck::{shown, Outcome};
use crate::text::{nodes, print_database, print_query, print_refusal, read_database};
use crate::value::{refuse, Database, Node, Query, Refusal, COLUMNS, NODES, NUMBERS, TABLES};

/// Forms of a part of a path that have to be met.
const FORMS: [(&str, fn(&Path) -> bool); 13] = [
    ("alternative", is_alternative),
    ("sequence", is_sequence),
    ("inverse", is_inverse),
    ("plus", is_plus),
    ("alternatives grouped to the right", |part| matches!(part, Path::Alternative(_, right) if is_alternative(right))),
    ("sequences grouped to the right", |part| matches!(part, Path::Sequence(_, right) if is_sequence(right))),
    ("sequence of an alternative", |part| matches!(part, Path::Sequence(left, _) if is_alternative(left))),
    ("inverse of an inverse", |part| matches!(part, Path::Inverse(operand) if is_inverse(operand))),
    ("inverse of a plus", |part| matches!(part, Path::Inverse(operand) if is_plus(operand))),
    ("plus of an inverse", |part| matches!(part, Path::Plus(operand) if is_inverse(operand))),
    ("plus of a sequence", |part| matches!(part, Path::Plus(operand) if is_sequence(operand))),
    ("plus of a plus", |part| matches!(part, Path::Plus(operand) if is_plus(operand))),
    ("two pluses in a plus", |part| {
        is_plus(part) && part.parts().into_iter().filter(|inner| is_plus(inner)).count() > 2
    }),
];

fn is_alternative(path: &Path) -> bool {
    matches!(path, Path::Alternative(..))
}

fn is_sequence(path: &Path) -> bool {
    matches!(path, Path::Sequence(..))
}

fn is_inverse(path: &Path) -> bool {
    matches!(path, Path::Inverse(_))
}

fn is_plus(path: &Path) -> bool {
    matches!(path, Path::Plus(_))
}

/// The most bytes of a path, apart from the constant that is tested.
const LONGEST: usize = 128;

/// A path of more nodes has to be met.
const MANY: u128 = 1 << 40;

/// What paths have met.
#[derive(Default)]
pub struct Met {
    /// Parts of paths with a sheet by form, sheets that link something, and those whose plus goes round a cycle.
    forms: [u32; FORMS.len()],
    linking: u32,
    cycles: u32,
    /// 21 at the first byte, in the middle, after the end and at byte 129.
    places: [u32; 4],
    /// Whole and unfinished texts of 128 bytes, then such of 129.
    lengths: [u32; 4],
    /// Refusals of paths by number at desk and panel, and those of the program.
    numbers: [[u32; NUMBERS + 1]; 3],
    /// 10 with a later name that would get 9, and the other way round.
    first_names: [u32; 2],
    /// Sheets of as many nodes as the limit, and paths of one node more, at a desk's limit, at its highest and at the panel.
    exact: [u32; 3],
    one_more: [u32; 3],
    /// The most nodes of a path that gets 2.
    most: u128,
}

impl Met {
    pub fn outcomes(&self) -> Vec<Outcome> {
        let listed: Vec<String> =
            FORMS.iter().zip(self.forms).map(|((name, _), times)| format!("{name} {times}")).collect();
        let [desk, at_panel, program] = &self.numbers;
        let given = [desk, at_panel].iter().all(|numbers| [2, 9, 10, 11, 21].iter().all(|number| numbers[*number] > 0));
        let printed = [2, 9, 10, 11, 17, 21].iter().all(|number| program[*number] > 0);
        let every = |counts: &[u32]| counts.iter().all(|times| *times > 0);
        vec![
            outcome(
                "paths have every form",
                every(&self.forms) && self.linking > 0 && self.cycles > 0,
                format!("{}, {} link something, {} round a cycle", listed.join(", "), self.linking, self.cycles),
            ),
            outcome(
                "21 has every place",
                every(&self.places) && every(&self.lengths),
                format!(
                    "first byte, middle, after the end, byte 129 {:?}; whole and unfinished texts of 128 and 129 bytes {:?}",
                    self.places, self.lengths
                ),
            ),
            outcome(
                "paths get 2, 9, 10, 11 and 21",
                given && printed && every(&self.first_names),
                format!(
                    "desk {:?}, panel {:?}, program {:?}, 10 before a 9 and 9 before a 10 {:?}",
                    &desk[1..],
                    &at_panel[1..],
                    &program[1..],
                    self.first_names
                ),
            ),
            outcome(
                "paths meet the node limits",
                every(&self.exact) && every(&self.one_more) && self.most > MANY,
                format!("met {:?}, one more {:?}, at most {} nodes", self.exact, self.one_more, self.most),
            ),
        ]
    }

    /// 21 at a place of a text.
    fn off_the_grammar(&mut self, text: &[u8], place: usize) {
        let sort = match place {
            _ if place > LONGEST => 3,
            1 if !text.is_empty() => 0,
            _ if place > text.len() => 2,
            _ => 1,
        };
        self.places[sort] += 1;
    }

    fn has_a_sheet(&mut self, path: &Path, links: &Links) {
        for part in path.parts() {
            for (times, (_, form)) in self.forms.iter_mut().zip(FORMS) {
                *times += u32::from(form(part));
            }
        }
        self.linking += u32::from(!links.is_empty());
        self.cycles += u32::from(is_plus(path) && links.iter().any(|(from, to)| from == to));
    }
}

fn all_names() -> Vec<u8> {
    (0..TABLES as u8).collect()
}

/// The same tree of the text with as few parentheses as there can be and of one with needless ones.
pub fn printed(random: &mut Random, _: &mut Coverage) -> Verdict {
    let signs = random.below(30);
    let path = path(random, &all_names(), signs);
    let text = fewest(&path);
    for text in [text.clone(), needless(random, &path)] {
        let read = Path::read(&text);
        if read.as_ref() != Some(&path) {
            return Err(format!("{path:?} printed as {} is read as {read:?}", shown(&text)));
        }
        if longest(&text) != (text.len(), true) {
            return Err(format!("{} is no path: {:?}", shown(&text), longest(&text)));
        }
    }
    for fewer in with_a_pair_less(&text) {
        if Path::read(&fewer).as_ref() == Some(&path) {
            return Err(format!("{path:?} printed as {} is read of {} too", shown(&text), shown(&fewer)));
        }
    }
    Ok(true)
}

/// The texts that lack one pair of parentheses of a path.
fn with_a_pair_less(text: &[u8]) -> Vec<Vec<u8>> {
    let (mut open, mut found) = (Vec::new(), Vec::new());
    for (at, byte) in text.iter().enumerate() {
        match byte {
            b'(' => open.push(at),
            b')' => {
                let first = open.pop().expect("parentheses in pairs");
                found.push([&text[..first], &text[first + 1..at], &text[at + 1..]].concat());
            }
            _ => {}
        }
    }
    found
}

/// Whether a text begins a path, by the reader alone: with an operand behind it if one is due, and with a parenthesis for each
/// that is open.
fn begins(front: &[u8]) -> bool {
    let count = |sought: u8| front.iter().filter(|byte| **byte == sought).count();
    let Some(open) = count(b'(').checked_sub(count(b')')) else {
        return false;
    };
    let ended = |operand: &[u8]| Path::read(&[front, operand, &b")".repeat(open)].concat()).is_some();
    ended(b"") || ended(b"0")
}

/// The place of 21 by the reader alone.
fn place_by_reader(text: &[u8]) -> Option<u32> {
    let within = text.len().min(LONGEST);
    let bad = (1..=within).find(|front| !begins(&text[..*front]));
    let end = (text.len() > LONGEST || Path::read(text).is_none()).then_some(within + 1);
    bad.or(end).map(|place| place as u32)
}

/// A path's text with edits, or bytes of which most are a path's.
fn off_the_grammar(random: &mut Random) -> Vec<u8> {
    const BYTES: &[u8] = b"0123456789||//^++((()) ";
    match random.below(8) {
        0 => (0..random.below(12)).map(|_| BYTES[random.below(BYTES.len())]).collect(),
        1 => {
            let (length, whole) = (2 + random.below(150), random.once_in(2));
            let text = text_of(random, length, whole);
            damage::path(random, &text)
        }
        _ => {
            let signs = random.below(20);
            let path = path(random, &all_names(), signs);
            let text = needless(random, &path);
            damage::path(random, &text)
        }
    }
}

pub fn places(random: &mut Random, coverage: &mut Coverage) -> Verdict {
    let text = off_the_grammar(random);
    let (found, due) = (place(&text), place_by_reader(&text));
    let told = |why: String| Err(format!("{why} of {:?}", shown(&text)));
    let (begun, _) = longest(&text);
    if let Some(front) = (0..=text.len()).find(|front| begins(&text[..*front]) != (*front <= begun)) {
        return told(format!("{begun} bytes begin a path, but not as read at {front},"));
    }
    if found != due {
        return told(format!("{found:?}, not {due:?},"));
    }
    let replied = read_path(&text, &Database::stored(&[], 0), NODES);
    let Some(place) = found else {
        return if replied == refuse(10, 0) { Ok(false) } else { told(format!("{replied:?}")) };
    };
    if replied != refuse(21, place) {
        return told(format!("{replied:?}, not 21 at {place},"));
    }
    coverage.paths.off_the_grammar(&text, place as usize);
    coverage.refused(Refusal { number: 21, place });
    // What comes behind the byte makes no difference.
    if let Some(front) = text.get(..place as usize) {
        let other = [front, &off_the_grammar(random)].concat();
        if read_path(&other, &Database::stored(&[], 0), NODES) != refuse(21, place) {
            return told(format!("not 21 at {place} as {:?},", shown(&other)));
        }
    }
    Ok(true)
}

/// Texts of about 128 bytes: whole, unfinished, and with a byte that is in no path.
pub fn lengths(random: &mut Random, coverage: &mut Coverage) -> Verdict {
    let (length, whole) = (LONGEST - 2 + random.below(6), random.once_in(2));
    let mut text = text_of(random, length, whole);
    let mut due = if whole && length <= LONGEST { None } else { Some(length.min(LONGEST) + 1) };
    let harmed = random.once_in(3);
    if harmed {
        let at = random.below(length);
        text[at] = [b' ', b'\n', b'*', b'?', 0, 0x80, b'a'][random.below(7)];
        due = Some((at + 1).min(LONGEST + 1));
    } else if length == LONGEST || length == LONGEST + 1 {
        coverage.paths.lengths[2 * (length - LONGEST) + usize::from(!whole)] += 1;
    }
    let replied = read_path(&text, &Database::stored(&[], 0), NODES);
    let expected = due.map_or(refuse(10, 0), |place| refuse(21, place as u32));
    if replied == expected {
        Ok(true)
    } else {
        Err(format!("{replied:?}, not {expected:?}, of {length} bytes {:?}", shown(&text)))
    }
}

/// The sheet's lines a second time: the patterns of each part as words, and the number of the next fix.
fn patterned(path: &Path, first: usize) -> (String, usize) {
    match path {
        Path::Name(table) => (format!("table={table}"), first),
        Path::Alternative(left, right) => {
            let (left, next) = patterned(left, first);
            let (right, next) = patterned(right, next);
            (format!("{left} {right} pair=union"), next)
        }
        Path::Sequence(left, right) => {
            let (left, next) = patterned(left, first);
            let (right, next) = patterned(right, next);
            (format!("{left} copy=1,2 drop=1 {right} copy=0,2 drop=0 pair=join drop=2"), next)
        }
        Path::Inverse(operand) => {
            let (operand, next) = patterned(operand, first);
            (format!("{operand} copy=0,2 drop=0 copy=1,0 drop=1 copy=2,1 drop=2"), next)
        }
        Path::Plus(operand) => {
            let (once, next) = patterned(operand, first);
            let (again, v) = patterned(operand, next);
            (format!("{once} var={v} copy=1,2 drop=1 {again} copy=0,2 drop=0 pair=join drop=2 fix={v}"), v + 1)
        }
    }
}

/// The most nodes of a path whose lines are written in a test.
const WRITTEN: u128 = 4000;

fn rows_of(links: &Links) -> Relation {
    links.iter().map(|(from, to)| Row::from([(0, *from), (1, *to)])).collect()
}

/// The numbers of the fix lines in their order.
fn fixes(query: &Query) -> Vec<u8> {
    let number = |line: &Node| if let Node::Fix(v) = line { Some(*v) } else { None };
    query.lines().iter().filter_map(number).collect()
}

/// A database with a table that links, and a path over such tables.
fn over_tables(random: &mut Random, most: u128) -> (Database, Path) {
    loop {
        let database = database(random);
        let names = linking(database.schema());
        if !names.is_empty() {
            let path = if random.once_in(6) {
                let nodes = 10 + random.below(most as usize - 9) as u128;
                path_of(random, &names, nodes)
            } else {
                path_within(random, &names, most)
            };
            return (database, path);
        }
    }
}

pub fn sheets(random: &mut Random, coverage: &mut Coverage) -> Verdict {
    let (database, path) = over_tables(random, NODES as u128);
    let text = fewest(&path);
    let query = match read_path(&text, &database, NODES) {
        Ok(query) => query,
        Err(refusal) => return Err(format!("{refusal:?} of {}", shown(&text))),
    };
    let ensure = |holds: bool, why: &str| ensure(holds, &format!("{}: {why}", shown(&text)), &query, &database);
    ensure(query.lines() == nodes(&patterned(&path, 0).0), "other lines")?;
    ensure(u128::from(query.count) == path.nodes(), "another count")?;
    ensure(fixes(&query).into_iter().eq(0..fixes(&query).len() as u8), "fixes in another order")?;
    for more in [needless(random, &path), padded(&path, LONGEST)] {
        let same = more.len() > LONGEST || read_path(&more, &database, NODES).as_ref() == Ok(&query);
        ensure(same, &format!("another sheet of {}", shown(&more)))?;
    }
    let checked = match check(&query, database.schema()) {
        Ok(checked) => checked,
        Err(refusal) => return ensure(false, &format!("{refusal:?}")).map(|()| false),
    };
    ensure(*checked.columns(&checked.root) == Columns::from([0, 1]), "other columns")?;
    let tables = database.relations();
    let links = path.links(&tables);
    coverage.paths.has_a_sheet(&path, &links);
    let mut tested = false;
    if let Some(rows) = meaning_of(&query, &tables, MOST) {
        ensure(rows == rows_of(&links), "another meaning")?;
        tested = true;
    }
    if let Ok(machine) = execute(&plan(&checked.root), &tables, MOST, u32::MAX) {
        ensure(machine.registers[checked.root.node - 1] == rows_of(&links), "another answer")?;
    }
    Ok(tested)
}

/// What each bad name of a text on the grammar would get, 10 or 9; the first one decides.
fn bad_names(text: &[u8], schema: &[Columns]) -> Vec<u32> {
    let numbers = text.split(|byte| !byte.is_ascii_digit()).filter(|digits| !digits.is_empty());
    let table = |digits: &[u8]| digits.iter().fold(0, |value, digit| 10 * value + usize::from(digit - b'0'));
    let bad = |table: usize| match schema.get(table) {
        None => Some(10),
        Some(columns) => (!columns.iter().eq(&[0, 1])).then_some(9),
    };
    numbers.filter_map(|digits| bad(table(digits))).collect()
}

/// What is due of a text that is on the grammar or not, over a database that is on its form or not.
fn due(text: &[u8], database: &Database, limit: usize) -> Result<(), Refusal> {
    if let Some(place) = place_by_reader(text) {
        return refuse(21, place);
    }
    database.form()?;
    if let Some(number) = bad_names(text, database.schema()).first() {
        return refuse(*number, 0);
    }
    let path = Path::read(text).expect("a path");
    if path.nodes() > limit as u128 {
        return refuse(2, 0);
    }
    Ok(())
}

/// Any of a text off the grammar, a database off its form, bad names and too low a limit, together or apart.
pub fn refusals(random: &mut Random, coverage: &mut Coverage) -> Verdict {
    let mut database = database(random);
    let (names, signs) = (names(random, database.schema()), random.below(12));
    let path = path(random, &names, signs);
    let mut text = needless(random, &path);
    if random.once_in(3) {
        text = damage::path(random, &text);
    }
    if random.once_in(3) {
        (database, _) = damage::database(random, &database);
    }
    let limit = if random.once_in(2) { NODES } else { random.below(40) };
    for (at, limit) in [limit, panel::NODES].into_iter().enumerate() {
        let read = if at == 0 { read_path(&text, &database, limit) } else { panel::read_path(&text, &database) };
        let (replied, due) = (read.map(|_| ()), due(&text, &database, limit));
        if replied != due {
            return Err(format!("{replied:?}, not {due:?}, of {:?} over {database:?}", shown(&text)));
        }
        if let Err(refusal) = due {
            coverage.paths.numbers[at][refusal.number as usize] += 1;
            match at {
                0 => coverage.refused(refusal),
                _ => coverage.panel.refused(refusal),
            }
        }
    }
    if let Err(Refusal { number: 9 | 10, .. }) = due(&text, &database, NODES) {
        let bad = bad_names(&text, database.schema());
        coverage.paths.first_names[0] += u32::from(bad[0] == 10 && bad.contains(&9));
        coverage.paths.first_names[1] += u32::from(bad[0] == 9 && bad.contains(&10));
    }
    Ok(true)
}

/// The most pluses in each other: the inner one takes two bytes, each other one three more.
const PLUSES: usize = 1 + (LONGEST - 2) / 3;

/// Limits at, below and above the node count, at the desk and at the panel; the count is that of the lines.
pub fn limits(random: &mut Random, coverage: &mut Coverage) -> Verdict {
    let about = random.below(3) as u128;
    let (database, path) = match random.below(5) {
        0 => (doors(), nested(0, random.below(PLUSES + 1))),
        1 => (doors(), past_a_power(random, 0)),
        2 => (doors(), path_of(random, &[0], panel::NODES as u128 - 1 + about)),
        3 => (doors(), path_of(random, &[0], NODES as u128 - 1 + about)),
        _ => over_tables(random, WRITTEN / 8),
    };
    let (text, nodes) = (fewest(&path), path.nodes());
    let told = |why: &str| Err(format!("{why} of {nodes} nodes {}", shown(&text)));
    if nodes <= WRITTEN && patterned(&path, 0).0.split(' ').count() as u128 != nodes {
        return told("other lines");
    }
    let met = &mut coverage.paths;
    let exact = usize::try_from(nodes).unwrap_or(usize::MAX);
    for limit in [exact, exact - 1, exact.saturating_add(1), NODES, random.below(NODES)] {
        let limit = limit.min(NODES);
        let due = if nodes > limit as u128 { refuse(2, 0) } else { Ok(nodes as u32) };
        if read_path(&text, &database, limit).map(|query| query.count) != due {
            return told(&format!("not {due:?} under {limit}"));
        }
        met.exact[0] += u32::from(exact == limit);
        met.one_more[0] += u32::from(exact == limit + 1);
        met.exact[1] += u32::from(limit == NODES && exact == limit);
        met.one_more[1] += u32::from(limit == NODES && exact == limit + 1);
    }
    let due = if exact > panel::NODES { refuse(2, 0) } else { Ok(nodes as u32) };
    if panel::read_path(&text, &database).map(|query| query.count) != due {
        return told("another reply of the panel");
    }
    met.exact[2] += u32::from(exact == panel::NODES);
    met.one_more[2] += u32::from(exact == panel::NODES + 1);
    met.most = met.most.max(nodes);
    Ok(true)
}

/// One table with the columns 0 and 1.
fn doors() -> Database {
    Database::stored(&[(Columns::from([0, 1]), rows_of(&Links::from([(1, 2), (2, 3)])))], 0)
}

/// The book of a program's folder: as printed, with edits, too long or with too many rows.
fn book(random: &mut Random, database: &Database) -> Vec<u8> {
    let printed = print_database(database);
    match random.below(12) {
        0 | 1 => damage::text(random, &printed),
        2 => [&printed[..], &b"\n".repeat(FILE_BYTES)].concat()[..FILE_BYTES + random.below(4)].to_vec(),
        3 => {
            let rows = STORED_ROWS as u32 - 1 + random.below(4) as u32;
            let chain: Links = (0..rows).map(|row| (row, row + 1)).collect();
            print_database(&Database::stored(&[(Columns::from([0, 1]), rows_of(&chain))], 0))
        }
        4 => Vec::new(),
        _ => printed,
    }
}

/// 21, then what is said of the book, then the rest.
pub fn programs(random: &mut Random, coverage: &mut Coverage) -> Verdict {
    let database = database(random);
    let (names, signs) = (names(random, database.schema()), random.below(12));
    let path = path(random, &names, signs);
    let mut text = needless(random, &path);
    if random.once_in(3) {
        text = damage::path(random, &text);
    }
    let book = book(random, &database);
    let due = match (place_by_reader(&text), read_database(&book, &[0; COLUMNS * STORED_ROWS])) {
        (Some(place), _) => refuse(21, place),
        _ if book.len() > FILE_BYTES => refuse(17, 0),
        (None, Err(refusal)) => Err(refusal),
        (None, Ok(read)) => due(&text, &read, NODES),
    };
    let expected = match due {
        Ok(()) => print_query(&Query::new(&nodes(&patterned(&Path::read(&text).expect("a path"), 0).0), NODES)),
        Err(refusal) => {
            coverage.paths.numbers[2][refusal.number as usize] += 1;
            print_refusal(refusal)
        }
    };
    let printed = print_path(&text, &book);
    if printed == expected {
        Ok(true)
    } else {
        let (printed, expected) = (shown(&printed), shown(&expected));
        Err(format!("printed\n{printed}and not\n{expected}of {:?} over\n{}", shown(&text), shown(&book)))
    }
}
