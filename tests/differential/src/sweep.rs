//! Each of the 256 bytes at each place of a few texts, in place of the byte there and before it, the end included. No seed
//! changes it.

use crate::call::Call;
use crate::compared;
use crate::slices::{flat_database, Slices, DATABASE_ROOM, QUERY_ROOM};
use crate::tally::Tally;
use reference::algebra::{Columns, Relation};
use reference::random::Random;
use reference::value::{Database, COLUMNS, NODES};

/// Every kind of line.
const SHEET: &[u8] =
    b"guide=1\nnodes=15\ntable=9\nvar=1\nfact=0,4294967295\npair=union\npair=join\npair=except\neq=3,429496729\n\
    ne=5,0\nmax=6,1850\nsame=2,7\ncopy=4,0\ndrop=7\nfix=15\nmu=10\nlast=4\n";

/// Values that another digit makes too large or puts out of order.
const BOOK: &[u8] = b"guide=1\ntables=2\ncols=0,1\nrows=3\nrow=0,98\nrow=1,429496729\nrow=31,4294967295\n\
    cols=2,5,6\nrows=1\nrow=7,80,64\n";

/// Every sign, and names of one and of two digits.
const PATHS: [&[u8]; 4] = [b"7", b"^(0/1+)|2", b"12/(10|^3)", b"((4)+|5)+"];

pub fn cases(tally: &mut Tally) {
    let random = &mut Random::new(1);
    let sheet = Slices { query: random.fill(QUERY_ROOM + 1), ..Slices::default() };
    // Room for a row more than there are.
    let (database, store) = (random.fill(DATABASE_ROOM + 1), random.fill(5 * COLUMNS));
    let book = Slices { database, store, ..Slices::default() };
    let path = Slices { database: tables(), ..sheet.clone() };
    for (call, texts, lent) in [
        (Call::ReadQuery { limit: NODES }, &[SHEET][..], &sheet),
        (Call::PanelReadQuery, &[SHEET], &sheet),
        (Call::ReadDatabase, &[BOOK], &book),
        (Call::ReadPath { limit: NODES }, &PATHS, &path),
        (Call::PanelReadPath, &PATHS, &path),
    ] {
        sweep(tally, call, texts, lent);
    }
}

/// Tables without rows: names up to 12 link, 13 has other columns, the rest isn't there.
fn tables() -> Vec<u32> {
    let table = |columns: [u8; 2]| (Columns::from(columns), Relation::new());
    let mut flat = flat_database(&Database::stored(&[vec![table([0, 1]); 13], vec![table([0, 2])]].concat(), 0));
    flat.resize(DATABASE_ROOM, 0);
    flat
}

/// One call on the changed texts. A case of its own: each byte is refused at some place, and those accepted at some place are the
/// digits and what stands in the texts.
fn sweep(tally: &mut Tally, call: Call, texts: &[&[u8]], lent: &Slices) {
    let bytes = || 0..=u8::MAX;
    let (mut accepted, mut refused) = ([0; 256], [0; 256]);
    for text in texts {
        for place in 0..=text.len() {
            for (byte, end) in bytes().flat_map(|byte| [(byte, place), (byte, place + 1)]) {
                let Some(behind) = text.get(end..) else {
                    continue;
                };
                let text = [&text[..place], &[byte], behind].concat();
                let read = compared(tally, call, &Slices { text, ..lent.clone() }).is_some();
                let times = if read { &mut accepted } else { &mut refused };
                times[usize::from(byte)] += 1;
            }
        }
    }
    let (taken, left): (u64, u64) = (accepted.iter().sum(), refused.iter().sum());
    println!("{call:?} of each byte at each place: {taken} accepted, {left} refused");
    let met = |times: [u64; 256]| bytes().filter(|byte| times[usize::from(*byte)] > 0).collect::<Vec<_>>();
    let stands = |byte: &u8| byte.is_ascii_digit() || texts.iter().any(|text| text.contains(byte));
    let due = (bytes().filter(stands).collect::<Vec<_>>(), bytes().collect());
    tally.case(|| format!("{call:?}: bytes accepted and refused"), &due, &(met(accepted), met(refused)));
}
