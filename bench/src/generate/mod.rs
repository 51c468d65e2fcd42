//! Sheets and tables for the benchmark and the differential test, all of them made from a seed.

pub mod changes;
pub mod damage;
pub mod divisions;
pub mod halls;
pub mod kinds;
pub mod random;
pub mod sheets;
pub mod tables;
