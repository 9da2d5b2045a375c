//! A model of charts, showings and registers in plain Rust, written from the pages in `docs` alone, and trials to hold a program
//! against it. Nothing here is proved.

pub mod answer;
pub mod chart;
pub mod choice;
pub mod fault;
pub mod file;
pub mod generate;
pub mod line;
pub mod machine;
pub mod random;
pub mod register;
pub mod sittings;
pub mod solver;
pub mod table;
pub mod tally;
pub mod told;
pub mod transport;
pub mod weighted;
