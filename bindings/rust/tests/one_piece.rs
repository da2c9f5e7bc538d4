//! Recursion typed in one piece: a `mu` is split into a fix, and later places count in the split query.
mod common;

use capeshard::{panel, Line, Query};
use common::{book, query, refused, REACH};

/// Reach with one body, the doors or a way and one door more, and lines behind it.
fn one_piece(more: &[Line]) -> Query {
    Query::of(&[&REACH[..9], &[Line::Union, Line::Mu(1)], more].concat()).unwrap()
}

#[test]
fn one_piece_answers_as_reach_does() {
    let typed = one_piece(&[]);
    assert_eq!(typed.lines()[9..], [Line::Union, Line::Mu(1)]);
    assert_eq!(typed.compile(&book()), query(&[]).compile(&book()));
    assert_eq!(typed.run(&book(), 3, 15), query(&[]).run(&book(), 3, 15));
    assert_eq!(panel::run(&typed, &book(), 15), panel::run(&query(&[]), &book(), 15));
}

#[test]
fn a_step_counts_in_the_split_query() {
    let mut held = one_piece(&[Line::Eq(0, 1)]);
    assert_eq!(held.rewrite(&book(), 1, 12), refused(12, 0));
    assert_eq!(held, one_piece(&[Line::Eq(0, 1)]));
    assert_eq!(held.rewrite(&book(), 1, 11), Ok(()));
    let moved = [&REACH[..1], &[Line::Eq(0, 1)], &REACH[1..]].concat();
    assert_eq!(held.lines(), moved);
}

#[test]
fn a_body_needs_a_closed_branch_and_an_open_one() {
    for body in [Line::Table(0), Line::Var(1)] {
        let typed = Query::of(&[body, Line::Mu(1)]).unwrap();
        assert_eq!(typed.check(&book()), refused(20, 2));
        assert_eq!(panel::check(&typed, &book()), refused(20, 2));
    }
}

#[test]
fn a_mu_has_a_variable_s_number() {
    let numbered = |v| Query::of(&[Line::Table(0), Line::Var(15), Line::Union, Line::Mu(v)]).unwrap();
    assert_eq!(numbered(15).check(&book()), Ok(()));
    assert_eq!(numbered(14).check(&book()), refused(4, 2));
    assert_eq!(numbered(16).check(&book()), refused(1, 4));
}
