//! Document 01 a second time, with the requests of document 02 that have landed, written from the papers alone and without
//! the engine's code: test evidence beside the proofs. Relations are sets of mappings; nothing here works on rows of slots
//! until an answer is written.
//!
//! In the paper's words a query is a sheet, a database a book, a budget the allowance, a register a holder and a delta
//! the newest rows of a fix.

pub mod algebra;
pub mod allowance;
pub mod answer;
pub mod check;
pub mod damage;
pub mod examples;
pub mod fronts;
pub mod meaning;
pub mod origins;
pub mod panel;
pub mod path;
pub mod paths;
pub mod pauses;
pub mod plan;
pub mod properties;
pub mod random;
pub mod reading;
pub mod rewrite;
pub mod run;
pub mod selfcheck;
pub mod split;
pub mod steps;
pub mod term;
pub mod text;
pub mod value;
