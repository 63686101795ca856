//! `sirophan plain`: the plain spelling of a filter.

use crate::advice;
use crate::arguments::Arguments;
use crate::json;
use crate::report::{Failure, Output};

/// Spells, and answers with the spelling on a line.
pub fn run(arguments: &Arguments) -> Result<(), Failure> {
    let (name, filter) = arguments.text(0)?;
    let refused = |refusal| Failure::refused(advice::text_refused(&name, &filter, &[], refusal));
    let plain = sirophan::plain(&filter).map_err(refused)?;
    let mut output = Output::new();
    if arguments.json {
        let pairs = [
            ("filter", json::bytes(&plain)),
            ("length", plain.len().to_string()),
            ("changed", (plain != filter).to_string()),
        ];
        output.line(json::object(&pairs))?;
    } else {
        output.bytes(&plain)?;
    }
    output.flush()
}
