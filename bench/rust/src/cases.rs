//! A file of cases, in the form of crates/cases/stdin. Each is a line `case PATH BUDGET SKIP OUTPUT WORDS LENGTH`, all decimals, then
//! LENGTH bytes of sheet, then a line feed. PATH, BUDGET and SKIP are the setting; OUTPUT bytes and WORDS work words are lent.

use crate::{
    page,
    walk::{self, Setting},
};
use std::io::{self, Write};

struct Case<'a> {
    setting: Setting,
    output: usize,
    words: usize,
    sheet: &'a [u8],
}

/// Runs the cases by the walker and prints their outcomes as the program of crates/cases does: `case N` and what the box prints. `strict` is
/// the reader's.
pub fn print(out: &mut impl Write, bytes: &[u8], strict: bool) -> io::Result<()> {
    let mut rest = bytes;
    for number in 1.. {
        if rest.is_empty() {
            break;
        }
        let Some((case, after)) = first(rest) else {
            let message = format!("case {number}, at byte {}, is malformed", bytes.len() - rest.len());
            return Err(io::Error::new(io::ErrorKind::InvalidData, message));
        };
        let mut output = vec![0; case.output];
        let result = walk::run(case.sheet, strict, case.setting, case.words, &mut output);
        writeln!(out, "case {number}")?;
        page::print(out, &result, &output)?;
        rest = after;
    }
    Ok(())
}

/// The first case, and the bytes after it.
fn first(bytes: &[u8]) -> Option<(Case<'_>, &[u8])> {
    let end = bytes.iter().position(|&byte| byte == b'\n')?;
    let line = std::str::from_utf8(&bytes[..end]).ok()?;
    let numbers: Vec<u32> = line.strip_prefix("case ")?.split(' ').map(|number| number.parse().ok()).collect::<Option<_>>()?;
    let [path_limit, budget, skip, output, words, length] = numbers[..] else { return None };
    let (sheet, rest) = bytes[end + 1..].split_at_checked(length as usize)?;
    let setting = Setting { path_limit, budget, skip };
    let case = Case { setting, output: output as usize, words: words as usize, sheet };
    Some((case, rest.strip_prefix(b"\n")?))
}
