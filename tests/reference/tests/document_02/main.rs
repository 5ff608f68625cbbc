//! Tests of document 02: the coded ticket as it is written (T-01), and as it is read (T-02) in
//! `reading`; ink that falls off (T-06) in `falls`. Expected values are the document's; where it
//! gives none, they come from `plain`, the rule by sets of points and text.

mod cases_a_to_i;
mod falls;
mod lent_bytes;
mod plain;
mod reading;
mod refusals;
mod words;
