//! Tests of document 01, hit-or-miss with the edge of T-04 and row 5 of T-05. Expected values are
//! the documents'; where they give none, they come from `plain`, the formula by sets of points.

mod calls;
mod cases_a_to_m;
mod formula;
mod generated;
mod lent_bytes;
mod open_points;
mod plain;
mod program;
mod properties;
mod refusals;
mod slips;
