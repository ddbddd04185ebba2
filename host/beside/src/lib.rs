//! Saltcurtain beside fast-tlsh and Trend Micro's C++. The programs are `beside` (comparison, search and stored list), `bench` and `drive`.

pub mod fields;
pub mod inputs;
pub mod judge;
pub mod mapped;
pub mod oracle;
pub mod random;
#[path = "../../stored/rules.rs"]
pub mod rules;
pub mod timed;
