//! Each of the 256 bytes at each place of a line, in place of the byte there and before it. What is due comes from the forms as
//! document 01 writes them, matched byte by byte: no line is cut at its signs, and no number is worked out.

use super::{outcome, Coverage, Verdict};
use crate::random::Random;
use crate::selfcheck::{shown, Outcome};
use crate::text::{read_database, read_query, read_step};
use crate::value::{refuse, COLUMNS, NODES};

/// The refusal's number, lines on their form, and the forms that the next line may have. A capital stands for a number, L for a
/// list of columns.
const DUE: [(u32, &str, &str); 10] = [
    (1, "", "guide=1"),
    (1, "guide=1\n", "nodes=W"),
    (1, "guide=1\nnodes=1\n", NODE_LINES),
    (11, "", "guide=1"),
    (11, "guide=1\n", "tables=N"),
    (11, "guide=1\ntables=1\n", "cols=L"),
    (11, "guide=1\ntables=1\ncols=0\n", "rows=R"),
    (11, "guide=1\ntables=1\ncols=5\nrows=1\n", "row=W"),
    (11, "guide=1\ntables=1\ncols=0,2,7\nrows=1\n", "row=W,W,W"),
    (12, "", "step=W,W"),
];

const NODE_LINES: &str =
    "table=T var=V fact=C,W pair=union pair=join pair=except eq=C,W ne=C,W max=C,W same=C,D copy=A,B drop=A \
    fix=V mu=V last=C";

/// The highest number that a capital stands for.
fn most(capital: u8) -> &'static [u8] {
    match capital {
        b'T' | b'V' => b"15",
        b'A' | b'B' | b'C' | b'D' => b"7",
        b'N' => b"16",
        b'R' => b"4096",
        _ => b"4294967295",
    }
}

const DIGITS: &[u8] = b"0123456789";

/// Of two numbers without leading zeros the longer is higher, and of two as long the one that comes later by its bytes.
fn is_number(text: &[u8], most: &[u8]) -> bool {
    let canonical = !text.is_empty() && (text[0] != b'0' || text.len() == 1);
    canonical && text.iter().all(|byte| DIGITS.contains(byte)) && (text.len(), text) <= (most.len(), most)
}

fn is_columns(text: &[u8]) -> bool {
    let columns: Vec<&u8> = text.iter().step_by(2).collect();
    let commas = text.iter().skip(1).step_by(2).all(|byte| *byte == b',');
    let ascend = columns.windows(2).all(|pair| pair[0] < pair[1]);
    text.len() % 2 == 1 && commas && ascend && columns.iter().all(|column| DIGITS[..COLUMNS].contains(column))
}

fn matches(form: &[u8], line: &[u8]) -> bool {
    let Some((first, form)) = form.split_first() else {
        return line.is_empty();
    };
    let part = |text: &[u8]| match first {
        b'L' => is_columns(text),
        b'A'..=b'Z' => is_number(text, most(*first)),
        _ => text == [*first],
    };
    (1..=line.len()).any(|end| part(&line[..end]) && matches(form, &line[end..]))
}

/// A line of a form.
fn line_of(random: &mut Random, form: &str) -> Vec<u8> {
    let mut part = |byte: u8| loop {
        let text: Vec<u8> = match byte {
            b'L' => DIGITS[..COLUMNS].iter().filter(|_| random.once_in(2)).flat_map(|column| [*column, b',']).collect(),
            b'A'..=b'Z' if random.once_in(3) => most(byte).to_vec(),
            b'A'..=b'Z' => (0..1 + random.below(most(byte).len())).map(|_| DIGITS[random.below(10)]).collect(),
            _ => return vec![byte],
        };
        let text = text.strip_suffix(b",").unwrap_or(&text);
        if matches(&[byte], text) {
            return text.to_vec();
        }
    };
    form.bytes().flat_map(|byte| part(byte)).collect()
}

/// Whether the line is refused behind those on their form.
fn is_refused(number: u32, before: &str, line: &[u8]) -> bool {
    let text = [before.as_bytes(), line, b"\n"].concat();
    let place = 1 + before.lines().count() as u32;
    match number {
        1 => read_query(&text, NODES) == refuse(number, place),
        11 => read_database(&text, &[0; COLUMNS]) == refuse(number, place),
        _ => read_step(line).is_none(),
    }
}

const CLASSES: [&str; 6] = ["digits", "lower-case letters", "commas", "equals signs", "line ends", "others"];

fn class(byte: u8) -> usize {
    let classes: [&[u8]; 5] = [DIGITS, b"abcdefghijklmnopqrstuvwxyz", b",", b"=", b"\n"];
    classes.iter().position(|class| class.contains(&byte)).unwrap_or(classes.len())
}

/// By class of the byte, the changed lines that are on a form and those off it.
#[derive(Default)]
pub struct Met([[u32; 2]; CLASSES.len()]);

impl Met {
    pub fn outcome(&self) -> Outcome {
        let listed: Vec<String> =
            CLASSES.iter().zip(self.0).map(|(class, [on, off])| format!("{class} {on} and {off}")).collect();
        let seen = format!("lines on and off the form by {}", listed.join(", "));
        let [classes @ .., [others, _]] = &self.0;
        let met = *others == 0 && classes.iter().all(|[on, _]| *on > 0) && self.0.iter().all(|[_, off]| *off > 0);
        outcome("each class of bytes has its places, others have none", met, seen)
    }
}

/// A line is refused exactly if what stands up to its byte 10 has none of the forms due.
pub fn lines(random: &mut Random, coverage: &mut Coverage) -> Verdict {
    let (number, before, forms) = DUE[random.below(DUE.len())];
    let form = random.pick(forms.split(' ')).expect("a form");
    let line = line_of(random, form);
    let place = random.below(line.len() + 1);
    for (byte, end) in (0..=u8::MAX).flat_map(|byte| [(byte, place), (byte, place + 1)]) {
        let Some(behind) = line.get(end..) else {
            continue;
        };
        let changed = [&line[..place], &[byte], behind].concat();
        // A steps line is handed in without the byte that ends it.
        let ends = if number == 12 { None } else { changed.iter().position(|byte| *byte == b'\n') };
        let due = &changed[..ends.unwrap_or(changed.len())];
        let on = forms.split(' ').any(|form| matches(form.as_bytes(), due));
        if on == is_refused(number, before, &changed) {
            let not = if on { "" } else { "not " };
            return Err(format!("{:?} behind {before:?} is {not}refused with {number}", shown(&changed)));
        }
        coverage.bytes.0[class(byte)][usize::from(!on)] += 1;
    }
    Ok(true)
}
