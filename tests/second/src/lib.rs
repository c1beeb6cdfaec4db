//! The calls of the planning engine, worked out a second time from the specification.
//!
//! Every line and station has its path to the HV station as an explicit list of ends. Customers behind an end are those of the
//! stations whose list holds it; rule 6 strips loose vertices until only closed paths are left; the walk keeps its own stack
//! and evaluates a set by the places that lie between each group of lines and their breaker.

pub mod calls;
pub mod compare;
pub mod damage;
#[cfg(engine)]
pub mod engine;
pub mod file;
pub mod fixed;
pub mod generate;
pub mod mistakes;
pub mod network;
pub mod random;
pub mod shrink;
pub mod subsets;
pub mod text;
pub mod walk;
pub mod words;
