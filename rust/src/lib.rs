//! A request line completed, or its shaking predicted, in 24 measures or at any period from 0.010 to 10.0 s, by
//! the Campbell-Bozorgnia 2008 equations. A line is any bytes, without the LF; what is not a request is refused
//! with number 14. A figure with a `~` before it is one that the caller inferred and did not measure, which changes no
//! number of an answer. A list of lines is answered in parts by [`Reader`], and by [`Answers`] for what writes to
//! [`std::io::Write`]. Such a list is written as a file by [`pack`], read back by [`unpack`], and its records are
//! answered one by one by [`records`].
//!
//! For every request that is accepted ln median and each sigma lie within one in the sixth place, one millionth, of
//! the exact value, and the median within 1 + Y/500000 of the exact Y, counted in its unit of 10^-10: in a spectrum, at
//! one measure, at one period.
//!
//! Each function here calls one proved function of `libexport.a`; `c/xanhupive.h` says what is promised
//! of each. The slices and references of Rust keep all that it asks of a caller.

mod files;
mod parts;

pub use files::{pack, pack_into, records, unpack, unpack_into, Record, FILE_HEAD, MOST_RECORDS, RECORD};
pub use parts::{Answers, Reader, Sheet, READER};

/// The most bytes that a request line may have before its LF; no request has more than 105.
pub const LONGEST_LINE: usize = 115;

/// Bytes that are enough for any answer of [`complete_line`].
pub const LONGEST_COMPLETION: usize = 38;

/// Bytes that are enough for any answer of [`predict_line`].
pub const LONGEST_ANSWER: usize = 912;

/// How many measures a spectrum has: the periods from 0.010 to 10.0 s, PGA, PGV, PGD. No median up to 0.25 s is
/// below PGA's: where its own is lower it is PGA's, with the period's own sigmas.
pub const MEASURES: usize = 24;

/// How many numbers a row has: ln median, median, and the sigmas intra, inter, total, arbitrary.
pub const COLUMNS: usize = 6;

/// How many numbers a spectrum has.
pub const NUMBERS: usize = MEASURES * COLUMNS;

/// The shortest period that may be asked for, in thousandths of a second.
pub const SHORTEST_PERIOD: u64 = 10;

/// The longest period that may be asked for, in thousandths of a second.
pub const LONGEST_PERIOD: u64 = 10_000;

extern "C" {
    fn xanhupive_complete_line(line: *const u8, line_length: usize, out: *mut u8, out_length: usize) -> usize;
    fn xanhupive_predict_line(line: *const u8, line_length: usize, out: *mut u8, out_length: usize) -> usize;
    fn xanhupive_measure(line: *const u8, line_length: usize, measure: u64, median: *mut f64, total: *mut f64) -> u32;
    fn xanhupive_spectrum(line: *const u8, line_length: usize, rows: *mut f64, rows_length: usize) -> u32;
    fn xanhupive_period(line: *const u8, line_length: usize, period: u64, row: *mut f64, row_length: usize) -> u32;
}

/// The completing program's answer, at the start of `out`; or `None` where it is longer than `out`, and
/// then no byte of `out` has changed.
pub fn complete_line<'a>(line: &[u8], out: &'a mut [u8]) -> Option<&'a [u8]> {
    // SAFETY: the two slices are valid for their lengths and, one of them lent alone, apart.
    let written = unsafe { xanhupive_complete_line(line.as_ptr(), line.len(), out.as_mut_ptr(), out.len()) };
    (written != 0).then_some(&out[..written])
}

/// The predicting program's answer, at the start of `out`; or `None` where it is longer than `out`, and
/// then no byte of `out` has changed.
pub fn predict_line<'a>(line: &[u8], out: &'a mut [u8]) -> Option<&'a [u8]> {
    // SAFETY: the two slices are valid for their lengths and, one of them lent alone, apart.
    let written = unsafe { xanhupive_predict_line(line.as_ptr(), line.len(), out.as_mut_ptr(), out.len()) };
    (written != 0).then_some(&out[..written])
}

/// One measure: the median in 10^-10 of g, cm/s or cm and the total sigma in millionths, both whole
/// numbers; or the refusal's number.
pub fn measure(line: &[u8], measure: u64) -> Result<(f64, f64), u32> {
    let mut median = 0.0;
    let mut total = 0.0;
    // SAFETY: the slice is valid for its length, and the two numbers are locals of their own.
    match unsafe { xanhupive_measure(line.as_ptr(), line.len(), measure, &mut median, &mut total) } {
        0 => Ok((median, total)),
        refusal => Err(refusal),
    }
}

/// All 24 rows, or the refusal's number.
pub fn spectrum(line: &[u8]) -> Result<[[f64; COLUMNS]; MEASURES], u32> {
    let mut rows = [[0.0; COLUMNS]; MEASURES];
    spectrum_into(line, rows.as_flattened_mut())?;
    Ok(rows)
}

/// All 24 rows, one after the other at the start of `rows`; or the refusal's number, 16 where `rows` has
/// fewer than [`NUMBERS`], and then no number has changed.
pub fn spectrum_into(line: &[u8], rows: &mut [f64]) -> Result<(), u32> {
    // SAFETY: the two slices are valid for their lengths and, one of them lent alone, apart.
    match unsafe { xanhupive_spectrum(line.as_ptr(), line.len(), rows.as_mut_ptr(), rows.len()) } {
        0 => Ok(()),
        refusal => Err(refusal),
    }
}

/// The row at a period in thousandths of a second, or the refusal's number: 17 where the request is accepted and the
/// period is not from [`SHORTEST_PERIOD`] to [`LONGEST_PERIOD`].
///
/// At the period of a measure it is that row of the spectrum. Between two, ln median and each sigma lie on the
/// straight line over the logarithm of the period between the two rows, whole numbers of millionths as in all rows,
/// and the median is the exponential of that ln median.
pub fn period(line: &[u8], period: u64) -> Result<[f64; COLUMNS], u32> {
    let mut row = [0.0; COLUMNS];
    // SAFETY: the slice is valid for its length, and the row is a local of COLUMNS numbers.
    match unsafe { xanhupive_period(line.as_ptr(), line.len(), period, row.as_mut_ptr(), COLUMNS) } {
        0 => Ok(row),
        refusal => Err(refusal),
    }
}

#[cfg(test)]
mod tests;
