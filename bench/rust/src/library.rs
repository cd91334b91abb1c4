//! The proved library, called as a C host calls it.

use crate::{
    sheet::Refused,
    walk::{End, Outcome, Setting, Tallies},
};

extern "C" {
    /// `report`: the number of the refusal or 0, its place, the end (0 done, 1 spent, 2 path, 3 output), nodes, answers, errors, fails,
    /// bytes written.
    fn vodlasim_run(
        sheet: *const u8,
        sheet_len: usize,
        path_limit: u32,
        budget: u32,
        skip: u32,
        work: *mut u32,
        work_len: usize,
        output: *mut u8,
        output_len: usize,
        report: *mut u64,
    );
}

pub fn run(sheet: &[u8], setting: Setting, work: &mut [u32], output: &mut [u8]) -> Result<Outcome, Refused> {
    let mut report = [0u64; 8];
    // SAFETY: each pointer is that of a live slice with the length beside it, and the report has its eight words.
    unsafe {
        vodlasim_run(
            sheet.as_ptr(),
            sheet.len(),
            setting.path_limit,
            setting.budget,
            setting.skip,
            work.as_mut_ptr(),
            work.len(),
            output.as_mut_ptr(),
            output.len(),
            report.as_mut_ptr(),
        );
    }
    let [number, place, end, nodes, answers, errors, fails, written] = report;
    if number != 0 {
        return Err(Refused { number: number as u32, place: place as usize });
    }
    let end = match end {
        0 => End::Done,
        1 => End::Spent,
        2 => End::Path,
        _ => End::Output,
    };
    let [nodes, answers, errors, fails] = [nodes, answers, errors, fails].map(|n| n as u32);
    Ok(Outcome { end, tallies: Tallies { nodes, answers, errors, fails }, written: written as usize })
}
