//! Runs that are put aside: gone on with from every line, to every end, between desk and panel, and pauses that are refused.
mod common;

use capeshard::{calls, panel, Answer, Database, Line, Pause, Progress, Refusal, Table, COLUMNS};
use common::{book, query, refused, REACH};

/// Reach has a register a node and one more for its fix.
const REGISTERS: usize = REACH.len() + 1;
const ROWS: usize = 24;
const STRETCH: usize = 1 + COLUMNS * ROWS;

fn paused(progress: Result<Progress<'_>, Refusal>) -> Pause<'_> {
    match progress {
        Ok(Progress::Paused(pause)) => pause,
        other => panic!("{other:?}"),
    }
}

fn finished(progress: Result<Progress<'_>, Refusal>) -> Answer {
    match progress {
        Ok(Progress::Finished(answer)) => answer,
        other => panic!("{other:?}"),
    }
}

#[test]
fn a_run_goes_on_from_every_line() {
    let (reach, book) = (query(&[]), book());
    let whole = reach.run(&book, ROWS, 15).unwrap();
    for lines in 0..15 {
        let pause = paused(reach.begin(&book, ROWS, lines));
        let next = if lines < 10 { lines + 1 } else { lines - 4 };
        assert_eq!((pause.next(), pause.ran()), (next, lines));
        assert_eq!(pause.workspace().len(), REGISTERS * STRETCH);
        assert_eq!(finished(pause.resume(15 - lines)), whole);
        assert_eq!(finished(pause.resume(pause.most())), whole);
        let on_panel = paused(panel::begin(&reach, &book, lines));
        assert_eq!((on_panel.next(), on_panel.ran()), (next, lines));
        assert_eq!(finished(on_panel.resume(15 - lines)), whole);
    }
    assert_eq!(finished(reach.begin(&book, ROWS, 15)), whole);
    assert_eq!(finished(panel::begin(&reach, &book, 15)), whole);
}

#[test]
fn line_by_line_is_one_run() {
    let (reach, book) = (query(&[]), book());
    let mut progress = reach.begin(&book, ROWS, 0);
    let mut lines = 0;
    while let Ok(Progress::Paused(pause)) = progress {
        assert_eq!(pause.ran(), lines);
        // Nothing more gives the same pause.
        assert_eq!(paused(pause.resume(0)), pause);
        assert_eq!(paused(reach.begin(&book, ROWS, lines)), pause);
        progress = pause.resume(1);
        lines += 1;
    }
    assert_eq!((lines, progress), (15, Ok(Progress::Finished(reach.run(&book, ROWS, 15).unwrap()))));
}

#[test]
fn a_pause_has_its_registers_in_place() {
    let (reach, book) = (query(&[]), book());
    let pause = paused(reach.begin(&book, ROWS, 12));
    let rows = |register: usize| {
        let stretch = &pause.workspace()[STRETCH * register..STRETCH * (register + 1)];
        let (held, rest) = stretch[1..].split_at(COLUMNS * stretch[0] as usize);
        assert!(rest.iter().all(|entry| *entry == 0));
        held.chunks(COLUMNS).map(|row| row[..3].to_vec()).collect::<Vec<_>>()
    };
    assert_eq!(rows(0), [[1, 2, 0], [2, 3, 0]]);
    assert_eq!(rows(1), Vec::<Vec<u32>>::new());
    assert_eq!(rows(3), [[1, 0, 3]]);
    assert_eq!(rows(9), [[1, 2, 0], [1, 3, 0], [2, 3, 0]]);
    assert_eq!(rows(10), [[1, 3, 0]]);
}

/// The chain of so many rooms.
fn chain(rooms: u32) -> Database {
    let doors = (1..rooms).map(|room| vec![room - 1, room]).collect();
    Database::of(&[Table { columns: vec![0, 1], rows: doors }]).unwrap()
}

#[test]
fn a_pause_goes_from_panel_to_desk_and_back() {
    let (reach, chain) = (query(&[]), chain(11));
    let whole = reach.run(&chain, panel::ROWS, 1_000).unwrap();
    for lines in 0..whole.ran - 1 {
        let pause = paused(panel::begin(&reach, &chain, lines)).at_desk();
        assert_eq!(finished(pause.resume(1_000)), whole);
        let pause = paused(pause.resume(1)).at_panel().unwrap();
        assert_eq!(finished(pause.resume(1_000)), whole);
    }
    assert_eq!(paused(reach.begin(&chain, panel::ROWS - 1, 3)).at_panel(), None);
    let long = query(&vec![Line::Max(0, 99); panel::NODES]);
    let pause = paused(long.begin(&chain, panel::ROWS, 3)).at_panel().unwrap();
    assert_eq!(pause.resume(1_000), refused(2, 0));
}

#[test]
fn a_run_that_was_put_aside_ends_with_18_as_one_run_does() {
    let (reach, book) = (query(&[]), book());
    assert_eq!(reach.run(&book, 2, 1_000), refused(18, 0));
    for lines in 0..10 {
        let pause = paused(reach.begin(&book, 2, lines));
        assert_eq!(pause.resume(1_000), refused(18, 0));
        // The pause is still there.
        assert_eq!(paused(pause.resume(0)), pause);
    }
    assert_eq!(reach.begin(&book, 2, 10), refused(18, 0));
}

#[test]
fn what_refuses_a_run_refuses_both_parts() {
    let descending = Database::of(&[Table { columns: vec![0], rows: vec![vec![2], vec![1]] }]).unwrap();
    let (reach, book, dropped) = (query(&[]), book(), query(&[Line::Drop(5)]));
    let of = |query, database, rows, entries| Pause::of(query, database, rows, (0, 0), vec![9; entries]).resume(5);
    let entries = REGISTERS * STRETCH;
    assert_eq!(of(&dropped, &descending, 0, 0), refused(11, 0));
    assert_eq!(of(&dropped, &book, 0, 0), refused(9, 11));
    for rows in [0, capeshard::ROWS + 1, usize::MAX] {
        assert_eq!(of(&reach, &book, rows, 0), refused(16, 0));
        assert_eq!(reach.begin(&book, rows, 5), refused(16, 0));
    }
    assert_eq!(of(&reach, &book, ROWS, entries - 1), refused(17, 0));
    assert_eq!(of(&reach, &book, ROWS, entries), refused(23, 0));
    assert_eq!(dropped.begin(&descending, 0, 5), refused(11, 0));
    assert_eq!(dropped.begin(&book, 0, 5), refused(9, 11));
}

#[test]
fn pauses_with_something_wrong_are_refused_with_23() {
    let (reach, book) = (query(&[]), book());
    let pause = paused(reach.begin(&book, ROWS, 12));
    let with = |next, ran, workspace: Vec<u32>| Pause::of(&reach, &book, ROWS, (next, ran), workspace).resume(3);
    let entry = |register: usize, at: usize, value: u32| {
        let mut workspace = pause.workspace().to_vec();
        workspace[STRETCH * register + at] = value;
        with(8, 12, workspace)
    };
    let held = || pause.workspace().to_vec();
    assert_eq!(finished(with(8, 12, held())).ran, 15);
    assert_eq!(finished(with(8, 12, [held(), vec![0; 9]].concat())).ran, 15);
    assert_eq!(with(0, 12, held()), refused(23, 0), "line 0");
    assert_eq!(with(11, 12, held()), refused(23, 0), "past the plan");
    assert_eq!(with(8, u32::MAX - 2, held()), refused(23, 0), "over the ceiling");
    assert_eq!(finished(with(8, u32::MAX - 3, held())).ran, u32::MAX, "at the ceiling");
    assert_eq!(pause.resume(u32::MAX), refused(23, 0), "over the ceiling");
    assert_eq!(entry(9, 0, ROWS as u32 + 1), refused(23, 0), "too many rows");
    assert_eq!(entry(9, 1, 3), refused(23, 0), "rows that descend");
    assert_eq!(entry(9, 2, 3), refused(23, 0), "equal rows");
    assert_eq!(entry(3, 2, 1), refused(23, 0), "a slot outside the line's columns");
    assert_eq!(entry(10, 3, 1), refused(23, 0), "a slot outside the fix's columns");
    assert_eq!(entry(1, 0, 1), refused(23, 0), "a row of a var");
    assert_eq!(entry(2, 1 + COLUMNS, 1), refused(23, 0), "an entry behind the rows");
    assert_eq!(entry(10, STRETCH - 1, 1), refused(23, 0), "the last entry of a register");
    assert_eq!(with(8, 12, [held(), vec![0, 1]].concat()), refused(23, 0), "the last entry");
}

#[test]
fn a_pause_from_elsewhere_goes_on_as_the_plan_does() {
    let (reach, book) = (query(&[]), book());
    let mut workspace = vec![0; REGISTERS * STRETCH];
    // One row of total that no seed gives.
    workspace[STRETCH * 9..STRETCH * 9 + 3].copy_from_slice(&[1, 4, 4]);
    let of = |next| Pause::of(&reach, &book, ROWS, (next, 7), workspace.clone());
    let answer = finished(of(10).resume(5));
    assert_eq!((answer.rows, answer.ran), (vec![vec![4, 4]], 8));
    let answer = finished(of(1).resume(15));
    assert_eq!((answer.rows, answer.ran), (vec![vec![1, 2], vec![1, 3], vec![2, 3]], 22));
}

/// The slices of one line, `table=0` over a row.
struct Lent {
    workspace: Vec<u32>,
    answer: Vec<u32>,
    told: Vec<u32>,
    pause: Vec<u32>,
}

#[test]
fn two_entries_are_written_with_19_alone() {
    let (mut sheet, mut tables) = ([0; 1 + 3 * 128], [0; 1 + 2 * 16]);
    sheet[..7].copy_from_slice(&[2, 1, 0, 0, 12, 1, 0]);
    tables[..3].copy_from_slice(&[1, 3, 1]);
    let store = [1, 2, 0, 0, 0, 0, 0, 0];
    let made = |begins: bool, budget: u32, lent: &mut Lent| {
        let call = if begins { calls::capeshard_begin } else { calls::capeshard_resume };
        // SAFETY: each pointer and length is that of one slice, and the written ones are borrowed here alone.
        unsafe {
            call(
                sheet.as_ptr(),
                sheet.len(),
                tables.as_ptr(),
                tables.len(),
                store.as_ptr(),
                store.len(),
                128,
                1,
                budget,
                lent.workspace.as_mut_ptr(),
                lent.workspace.len(),
                lent.answer.as_mut_ptr(),
                lent.answer.len(),
                lent.told.as_mut_ptr(),
                lent.told.len(),
                lent.pause.as_mut_ptr(),
                lent.pause.len(),
            )
        }
    };
    let mut lent = Lent { workspace: vec![9; 18], answer: vec![9; 9], told: vec![9; 4], pause: vec![9; 1] };
    assert_eq!(made(true, 1, &mut lent), 17 << 32);
    assert_eq!((lent.workspace[0], lent.pause[0]), (9, 9));
    lent.pause = vec![9; 3];
    assert_eq!(made(true, 1, &mut lent), 19 << 32);
    assert_eq!(lent.pause, [2, 1, 9]);
    assert_eq!(lent.workspace, [[1, 1, 2].as_slice(), &[0; 15]].concat());
    assert_eq!((&lent.answer[..], &lent.told[..]), (&[9; 9][..], &[9; 4][..]));
    lent.pause[0] = 3;
    assert_eq!(made(false, 1, &mut lent), 23 << 32);
    lent.pause[0] = 2;
    assert_eq!(made(false, 0, &mut lent), 19 << 32);
    assert_eq!((&lent.pause[..], &lent.workspace[..3]), (&[2, 1, 9][..], &[1, 1, 2][..]));
    assert_eq!(made(false, 9, &mut lent), 0);
    assert_eq!((&lent.answer[..], &lent.told[..]), (&[1, 0, 0, 0, 0, 0, 0, 0, 9][..], &[1, 1, 2, 9][..]));
    assert_eq!((&lent.workspace[..], &lent.pause[..]), (&[0; 18][..], &[2, 1, 9][..]));
}
