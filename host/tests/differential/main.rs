//! The libraries beside an implementation of document 01 by another hand: the same calls go to both, and every answer, count and buffer is compared.
//!
//! The calls are random, of a fixed seed. `TDD_SEED` sets another one, and every test prints the seed it ran with. The rows of `table` are
//! fixed, and what they expect comes from a third implementation, in Python.

mod analyser;
mod bench_lists;
mod calls;
mod chips;
mod code_rules;
mod coverage;
mod damaged;
mod find;
mod harden;
mod lent;
mod lists;
mod random;
mod raw;
mod read;
mod read_sync;
mod reference;
mod shrink;
mod table;
mod tracker;
