//! What is timed: the workloads, and the engine and the reference on each. The program `measure` times them and SQLite;
//! bench/run makes the table and the picture of what it writes. tests/differential compares the two on every workload.

pub mod engines;
pub mod workloads;
