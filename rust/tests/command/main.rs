//! The command `sirophan` as it is run: what it says on both streams, and its status. Messages are compared whole.

// Descriptions are made line by line and collected, which reads as what it is; none is long or made often.
#![allow(clippy::format_collect)]

mod check;
mod doubts;
mod explain;
mod fields;
mod folder;
mod help;
mod json;
mod pack;
mod pick;
mod plain;
mod query;
mod report;
mod seal;
mod search;
mod show;
mod sign;
mod streams;
mod table;
mod terminal;
mod verify;
