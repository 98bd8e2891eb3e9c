//! The proved libraries as Rust functions, and a second model of our own to hold them against.

pub mod book;
pub mod calls;
pub mod coverage;
pub mod generate;
pub mod host;
pub mod inputs;
pub mod integer;
pub mod lengths;
pub mod model;
pub mod report;
pub mod rules;
pub mod watch;
pub mod worked;
pub mod workloads;
