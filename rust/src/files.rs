//! A list of request lines, each with its LF, as a file and back, and a file's records answered one by one.

use crate::{Sheet, COLUMNS, LONGEST_LINE, MEASURES};

/// Bytes of a file before its records.
pub const FILE_HEAD: usize = 7;

/// Bytes of a record.
pub const RECORD: usize = 65;

/// The most records that a file has.
pub const MOST_RECORDS: usize = 65_535;

extern "C" {
    fn xanhupive_pack(list: *const u8, list_length: usize, file: *mut u8, file_length: usize, wrote: *mut u64) -> u32;
    fn xanhupive_unpack(file: *const u8, file_length: usize, list: *mut u8, list_length: usize, wrote: *mut u64) -> u32;
    fn xanhupive_file_records(file: *const u8, file_length: usize, count: *mut u64) -> u32;
    fn xanhupive_record_spectrum(record: *const u8, record_length: usize, rows: *mut f64, rows_length: usize) -> u32;
    fn xanhupive_record_answer(
        record: *const u8,
        record_length: usize,
        sheet: u64,
        out: *mut u8,
        out_length: usize,
        wrote: *mut u64,
    ) -> u32;
}

/// The file of a list, at the start of `file`; or the refusal's number, and then no byte of `file` has changed: 14
/// where a line is malformed or the last one has no LF, else 20 for more than [`MOST_RECORDS`] lines, else 16 where
/// the file is longer than `file`.
pub fn pack_into<'a>(list: &[u8], file: &'a mut [u8]) -> Result<&'a [u8], u32> {
    let mut wrote = 0;
    // SAFETY: the two slices are valid for their lengths and, one of them lent alone, apart; the number is a local.
    match unsafe { xanhupive_pack(list.as_ptr(), list.len(), file.as_mut_ptr(), file.len(), &mut wrote) } {
        0 => Ok(&file[..wrote as usize]),
        refusal => Err(refusal),
    }
}

/// The file of a list, or the refusal's number, as [`pack_into`] has them, with the room that the list needs.
pub fn pack(list: &[u8]) -> Result<Vec<u8>, u32> {
    let lines = list.iter().filter(|&&byte| byte == b'\n').count();
    let mut file = vec![0; FILE_HEAD + RECORD * lines.min(MOST_RECORDS)];
    let wrote = pack_into(list, &mut file)?.len();
    file.truncate(wrote);
    Ok(file)
}

/// The list of a file, at the start of `list`; or the refusal's number, and then no byte of `list` has changed: 19
/// for another mark or version, else 20 where the file is longer or shorter than its count says, else 21 for a field
/// that no line could hold, else 16 where the list is longer than `list`.
pub fn unpack_into<'a>(file: &[u8], list: &'a mut [u8]) -> Result<&'a [u8], u32> {
    let mut wrote = 0;
    // SAFETY: the two slices are valid for their lengths and, one of them lent alone, apart; the number is a local.
    match unsafe { xanhupive_unpack(file.as_ptr(), file.len(), list.as_mut_ptr(), list.len(), &mut wrote) } {
        0 => Ok(&list[..wrote as usize]),
        refusal => Err(refusal),
    }
}

/// The list of a file, or the refusal's number, as [`unpack_into`] has them, with the room that the file needs.
pub fn unpack(file: &[u8]) -> Result<Vec<u8>, u32> {
    let records = file.len() / RECORD;
    let mut list = vec![0; records.min(MOST_RECORDS) * (LONGEST_LINE + 1)];
    let wrote = unpack_into(file, &mut list)?.len();
    list.truncate(wrote);
    Ok(list)
}

/// One record of a file that was looked through by [`records`].
#[derive(Clone, Copy, Debug, PartialEq, Eq)]
pub struct Record<'a>(&'a [u8; RECORD]);

impl<'a> Record<'a> {
    /// The record's bytes.
    pub fn as_bytes(&self) -> &'a [u8; RECORD] {
        self.0
    }

    /// All 24 rows of the record's request, or the refusal's number: what [`spectrum`](crate::spectrum) gives for its
    /// line, without the line.
    pub fn spectrum(&self) -> Result<[[f64; COLUMNS]; MEASURES], u32> {
        let mut rows = [[0.0; COLUMNS]; MEASURES];
        let numbers = rows.as_flattened_mut();
        // SAFETY: the record and the numbers are valid for their lengths, and the numbers are a local.
        match unsafe { xanhupive_record_spectrum(self.0.as_ptr(), RECORD, numbers.as_mut_ptr(), numbers.len()) } {
            0 => Ok(rows),
            refusal => Err(refusal),
        }
    }

    /// The answer to the record's request as the sheet shows it, at the start of `out`; or 16 where it is longer than
    /// `out`, and then no byte of `out` has changed.
    pub fn answer<'b>(&self, sheet: Sheet, out: &'b mut [u8]) -> Result<&'b [u8], u32> {
        let mut wrote = 0;
        // SAFETY: the two slices are valid for their lengths and, one of them lent alone, apart; the number is a local.
        let refusal =
            unsafe { xanhupive_record_answer(self.0.as_ptr(), RECORD, sheet as u64, out.as_mut_ptr(), out.len(), &mut wrote) };
        match refusal {
            0 => Ok(&out[..wrote as usize]),
            refusal => Err(refusal),
        }
    }
}

/// The records of a file, one after the other; or the refusal's number, 19, 20 or 21, as [`unpack_into`] has them.
pub fn records(file: &[u8]) -> Result<impl ExactSizeIterator<Item = Record<'_>>, u32> {
    let mut count = 0;
    // SAFETY: the slice is valid for its length, and the number is a local.
    match unsafe { xanhupive_file_records(file.as_ptr(), file.len(), &mut count) } {
        0 => Ok(file[FILE_HEAD..]
            .chunks_exact(RECORD)
            .map(|bytes| Record(bytes.try_into().expect("a chunk is a record")))),
        refusal => Err(refusal),
    }
}

#[cfg(test)]
mod tests;
