//! A list of request lines, each with its LF, answered in parts that are cut at any place.

use std::io::{self, ErrorKind, Write};
use std::ops::Range;

use crate::{LONGEST_ANSWER, LONGEST_LINE};

/// Bytes of a [`Reader`].
pub const READER: usize = LONGEST_LINE + 1;

/// Whose answers a list gets.
#[derive(Clone, Copy, Debug, PartialEq, Eq)]
pub enum Sheet {
    /// The completing program's, without its header.
    Completion = 0,
    /// The predicting program's.
    Prediction = 1,
}

extern "C" {
    fn xanhupive_reader_begin(reader: *mut u8, reader_length: usize) -> u32;
    fn xanhupive_take_part(
        reader: *mut u8,
        reader_length: usize,
        sheet: u64,
        part: *const u8,
        part_length: usize,
        out: *mut u8,
        out_length: usize,
        took: *mut u64,
        wrote: *mut u64,
    ) -> u32;
    fn xanhupive_close(
        reader: *mut u8,
        reader_length: usize,
        out: *mut u8,
        out_length: usize,
        wrote: *mut u64,
    ) -> u32;
}

/// What a list in parts needs from one part to the next: its unfinished line.
///
/// The bytes may be stored and read back on another machine, by the same release. Two readers are equal
/// where their bytes are; of a finished line some may stand there still, so that readers which are not
/// equal may answer alike.
#[derive(Clone, Debug, PartialEq, Eq)]
pub struct Reader([u8; READER]);

impl Reader {
    /// A reader before the first byte of a list.
    pub fn new() -> Self {
        let mut bytes = [0; READER];
        // SAFETY: the bytes are a local, and READER of them.
        let misuse = unsafe { xanhupive_reader_begin(bytes.as_mut_ptr(), READER) };
        assert_eq!(misuse, 0, "libexport.a is of another release: its readers are longer");
        Self(bytes)
    }

    /// The reader that the bytes are. Any bytes are some reader.
    pub fn from_bytes(bytes: [u8; READER]) -> Self {
        Self(bytes)
    }

    /// The bytes that the reader is.
    pub fn as_bytes(&self) -> &[u8; READER] {
        &self.0
    }

    /// Takes a part and writes the answers to the lines that end in it, as many as fit, to the start of
    /// `out`; gives how many bytes it took and how many it wrote. The caller offers those not taken again.
    ///
    /// Or gives 16, where the first answer is longer than `out`; then no byte is taken, and the reader
    /// and `out` are as they were. Never with room for the sheet's longest answer.
    pub fn take_part(&mut self, sheet: Sheet, part: &[u8], out: &mut [u8]) -> Result<(usize, usize), u32> {
        let reader = &mut self.0;
        let mut took = 0;
        let mut wrote = 0;
        // SAFETY: the slices are valid for their lengths, the two numbers are locals of their own, and what is
        // written is lent alone and so apart from the rest.
        let refusal = unsafe {
            xanhupive_take_part(
                reader.as_mut_ptr(),
                READER,
                sheet as u64,
                part.as_ptr(),
                part.len(),
                out.as_mut_ptr(),
                out.len(),
                &mut took,
                &mut wrote,
            )
        };
        match refusal {
            0 => Ok((took as usize, wrote as usize)),
            refusal => Err(refusal),
        }
    }

    /// Ends the list: an unfinished line gets its `no 14` at the start of `out`. Gives how many bytes it
    /// wrote, and the reader is a new one.
    ///
    /// Or gives 16, where that answer is longer than `out`; then the reader and `out` are as they were.
    pub fn close(&mut self, out: &mut [u8]) -> Result<usize, u32> {
        let reader = &mut self.0;
        let mut wrote = 0;
        // SAFETY: the slices are valid for their lengths, the number is a local, and each is lent alone.
        match unsafe { xanhupive_close(reader.as_mut_ptr(), READER, out.as_mut_ptr(), out.len(), &mut wrote) } {
            0 => Ok(wrote as usize),
            refusal => Err(refusal),
        }
    }
}

impl Default for Reader {
    fn default() -> Self {
        Self::new()
    }
}

/// A list is written into this, in parts, and its answers go to the writer inside: those to a line as
/// soon as its LF is written, if the writer takes them.
///
/// What the writer did not take stays pending and is offered again, first of all, by the next call, so
/// that no answer is lost or written twice, whatever the writer does. [`Answers::finish`] ends the list;
/// dropping does not.
pub struct Answers<W: Write> {
    reader: Reader,
    sheet: Sheet,
    answers: [u8; LONGEST_ANSWER],
    pending: Range<usize>,
    writer: W,
}

impl<W: Write> Answers<W> {
    /// Before the first byte of a list.
    pub fn new(sheet: Sheet, writer: W) -> Self {
        Self {
            reader: Reader::new(),
            sheet,
            answers: [0; LONGEST_ANSWER],
            pending: 0..0,
            writer,
        }
    }

    /// Ends the list: an unfinished line is answered, and all that is pending handed on and flushed. Another
    /// list may begin then.
    ///
    /// After an error it is to be called again, and goes on where it stopped.
    pub fn finish(&mut self) -> io::Result<()> {
        self.hand_on()?;
        let wrote = self.reader.close(&mut self.answers).expect("the close's answer fits");
        self.pending = 0..wrote;
        self.flush()
    }

    /// The writer inside.
    pub fn get_ref(&self) -> &W {
        &self.writer
    }

    /// The writer inside, without what is pending or unfinished: there is none after [`Answers::finish`].
    pub fn into_inner(self) -> W {
        self.writer
    }

    /// Writes what is pending. What the writer took is no longer pending, also where an error follows.
    fn hand_on(&mut self) -> io::Result<()> {
        while !self.pending.is_empty() {
            match self.writer.write(&self.answers[self.pending.clone()]) {
                Ok(0) => return Err(ErrorKind::WriteZero.into()),
                Ok(count) => self.pending.start += count,
                Err(error) if error.kind() == ErrorKind::Interrupted => {}
                Err(error) => return Err(error),
            }
        }
        Ok(())
    }
}

impl<W: Write> Write for Answers<W> {
    /// Takes some of a part, a byte at least of one that has any. On an error no byte of it is taken.
    fn write(&mut self, part: &[u8]) -> io::Result<usize> {
        self.hand_on()?;
        let (took, wrote) = self
            .reader
            .take_part(self.sheet, part, &mut self.answers)
            .expect("the longest answer fits");
        self.pending = 0..wrote;
        // The bytes are taken, and an error would say that they are not: the next call meets it, if it lasts.
        let _ = self.hand_on();
        Ok(took)
    }

    /// Hands on what is pending and flushes the writer. An unfinished line stays unfinished.
    fn flush(&mut self) -> io::Result<()> {
        self.hand_on()?;
        self.writer.flush()
    }
}

#[cfg(test)]
mod tests;
