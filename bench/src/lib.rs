//! Rivals: the planner's work written in Rust for speed, to measure the planner against.
//!
//! Each rival makes the same checks and gives the same answers as the call it stands against, over
//! the same plain lists. The tests hold every one of them against the oracle.

pub mod chains;
pub mod clock;
pub mod diagonal;
pub mod hypercube;
pub mod jobs;
pub mod linked;
pub mod plan_list;
pub mod planning;
pub mod probes;
pub mod questions;
pub mod shares;
pub mod sheet;
pub mod subject;
pub mod timetable;
pub mod timing;
