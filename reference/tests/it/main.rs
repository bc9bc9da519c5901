//! Tests of the parts together, on made-up calls and files.

mod ends;
mod lines;
mod model;
mod modes;
mod plain;
mod prune;
mod random;
mod rewrite;
mod states;
