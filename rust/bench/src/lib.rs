//! Times the proved code against the plain code written for speed, in the same run: the judgement,
//! conversions, wishes, the engine's step and release, and the log run.

#![forbid(unsafe_code)]

pub mod convert;
pub mod engine;
pub mod judge;
pub mod log;
mod shapes;
mod turns;
pub mod wish;
