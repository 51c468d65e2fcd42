//! An independent program of the seven calls, generators of sheets and tables, and the way to the proved library.

pub mod generate;
pub mod proved;
pub mod reference;
