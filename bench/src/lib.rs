//! What the timings compare the proved functions with, and the inputs of both.

pub mod baseline;
pub mod inputs;
