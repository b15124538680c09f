//! The calls of the static library as functions over slices, and what to ask them.

pub mod calls;
pub mod compared;
pub mod guarded;
pub mod plan_list;
pub mod questions;
