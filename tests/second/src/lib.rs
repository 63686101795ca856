//! A second implementation of Sirophan in plain Rust. It was written from the definition of the card filter alone,
//! without a look at the proved code, so that the two are unlikely to share a mistake.
//!
//! It answers what `check`, `match`, `select`, `report`, `spell`, `prepare`, `judge`, `explain` and the program `pick` must
//! answer, and it generates the inputs on which the differential test compares the two.

pub mod beginning;
pub mod block;
pub mod cases;
pub mod date;
pub mod differential;
pub mod explain;
pub mod filter;
pub mod generate;
pub mod meaning;
pub mod number;
pub mod operations;
pub mod period;
pub mod pick;
pub mod rows;
pub mod search;
pub mod spelling;
pub mod spellings;
pub mod text;
pub mod token;
