//! What the box prints of a run: the listing, the end and the four tallies; or the refusal.

use crate::{
    sheet::Refused,
    walk::{End, Outcome},
};
use std::io::{self, Write};

pub fn print(out: &mut impl Write, result: &Result<Outcome, Refused>, output: &[u8]) -> io::Result<()> {
    match result {
        Err(Refused { number, place }) => writeln!(out, "refused={number}\nat={place}"),
        Ok(Outcome { end, tallies, written }) => {
            out.write_all(&output[..*written])?;
            writeln!(out, "end={}\nnodes={}\nanswers={}", name(*end), tallies.nodes, tallies.answers)?;
            writeln!(out, "errors={}\nfails={}", tallies.errors, tallies.fails)
        }
    }
}

fn name(end: End) -> &'static str {
    match end {
        End::Done => "done",
        End::Spent => "spent",
        End::Path => "path",
        End::Output => "output",
    }
}
