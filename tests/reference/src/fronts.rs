//! Which fronts of a text begin a property path (change request U6): Earley's recogniser over the rules of the standard that
//! are read, a set of items for each front. It knows nothing of the reader of paths, and the place of 21 comes from here.

use self::Part::{Alternative, Elt, EltOrInverse, Name, Primary, Sequence};
use self::Symbol::{Byte, Of};

/// The most bytes of a path's text.
pub const BYTES: usize = 128;

#[derive(Clone, Copy, Debug, PartialEq, Eq)]
enum Part {
    Alternative,
    Sequence,
    EltOrInverse,
    Elt,
    Primary,
    Name,
}

/// A part, or a byte of a range.
#[derive(Clone, Copy, Debug, PartialEq, Eq)]
enum Symbol {
    Of(Part),
    Byte(u8, u8),
}

const fn byte(byte: u8) -> Symbol {
    Byte(byte, byte)
}

/// A list with a sign between is a shorter list, the sign and one more. Each part derives some text, so an item that is left
/// over can be completed and its front begins a path.
const RULES: [(Part, &[Symbol]); 12] = [
    (Alternative, &[Of(Sequence)]),
    (Alternative, &[Of(Alternative), byte(b'|'), Of(Sequence)]),
    (Sequence, &[Of(EltOrInverse)]),
    (Sequence, &[Of(Sequence), byte(b'/'), Of(EltOrInverse)]),
    (EltOrInverse, &[Of(Elt)]),
    (EltOrInverse, &[byte(b'^'), Of(Elt)]),
    (Elt, &[Of(Primary)]),
    (Elt, &[Of(Primary), byte(b'+')]),
    (Primary, &[Of(Name)]),
    (Primary, &[byte(b'('), Of(Alternative), byte(b')')]),
    (Name, &[Byte(b'0', b'9')]),
    (Name, &[byte(b'1'), Byte(b'0', b'5')]),
];

/// A rule of which the symbols before the dot derive the bytes from the origin on.
#[derive(Clone, Copy, Debug, PartialEq, Eq)]
struct Item {
    rule: usize,
    dot: usize,
    origin: usize,
}

impl Item {
    fn part(&self) -> Part {
        RULES[self.rule].0
    }

    /// The symbol behind the dot; none if the rule is complete.
    fn due(&self) -> Option<Symbol> {
        RULES[self.rule].1.get(self.dot).copied()
    }

    fn moved(&self) -> Item {
        Item { dot: self.dot + 1, ..*self }
    }
}

fn rules_of(part: Part, origin: usize) -> impl Iterator<Item = Item> {
    (0..RULES.len()).filter(move |rule| RULES[*rule].0 == part).map(move |rule| Item { rule, dot: 0, origin })
}

/// The items of a front that follow from some of them; `earlier` are the sets of the shorter fronts.
fn closed(earlier: &[Vec<Item>], mut items: Vec<Item>) -> Vec<Item> {
    let front = earlier.len();
    let mut at = 0;
    while let Some(item) = items.get(at).copied() {
        let more: Vec<Item> = match item.due() {
            Some(Of(part)) => rules_of(part, front).collect(),
            Some(Byte(..)) => Vec::new(),
            // No rule derives zero bytes, so a complete one began at a shorter front.
            None => {
                let waits = |waiting: &&Item| waiting.due() == Some(Of(item.part()));
                earlier[item.origin].iter().filter(waits).map(Item::moved).collect()
            }
        };
        for item in more {
            if !items.contains(&item) {
                items.push(item);
            }
        }
        at += 1;
    }
    items
}

/// How many bytes the longest front has that begins a path, and whether the whole text is one.
pub fn longest(text: &[u8]) -> (usize, bool) {
    let mut sets = vec![closed(&[], rules_of(Alternative, 0).collect())];
    for (front, byte) in text.iter().enumerate() {
        let takes = |item: &&Item| matches!(item.due(), Some(Byte(first, last)) if (first..=last).contains(byte));
        let moved: Vec<Item> = sets[front].iter().filter(takes).map(Item::moved).collect();
        if moved.is_empty() {
            return (front, false);
        }
        let items = closed(&sets, moved);
        sets.push(items);
    }
    let whole = |item: &Item| item.part() == Alternative && item.origin == 0 && item.due().is_none();
    (text.len(), sets[text.len()].iter().any(whole))
}

/// The place of 21: the first byte at which the text so far begins no path, byte 129 or the one after the end, the earliest.
/// None of a path of at most 128 bytes.
pub fn place(text: &[u8]) -> Option<u32> {
    let (begins, whole) = longest(&text[..text.len().min(BYTES)]);
    let is_path = whole && text.len() <= BYTES;
    (!is_path).then_some(begins as u32 + 1)
}
