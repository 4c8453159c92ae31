//! A list cut at every place and lent every room; long and unfinished lines; readers of any bytes; writers
//! that take little, are interrupted or fail.

use super::*;
use crate::tests::{answered, Answer, ABOVE, GOOD, MARK, TOO_LARGE};
use crate::{complete_line, predict_line, LONGEST_COMPLETION};

/// What the completing sheet says to document 01's listing.
const COMPLETED: &[u8] = b"ok 90 10000 3000 5000 2000 emmem\nno 2\nno 10\n";

const MALFORMED: &[u8] = b"no 14\n";
const MARKS: [u8; LONGEST_ANSWER] = [MARK; LONGEST_ANSWER];

/// A line's answers by themselves.
fn answer_of(sheet: Sheet) -> Answer {
    match sheet {
        Sheet::Completion => complete_line,
        Sheet::Prediction => predict_line,
    }
}

/// Lines as a list.
fn listed(lines: &[&[u8]]) -> Vec<u8> {
    lines.iter().flat_map(|line| [line, &b"\n"[..]].concat()).collect()
}

/// Document 01's listing.
fn listing() -> Vec<u8> {
    listed(&[GOOD, TOO_LARGE, ABOVE])
}

/// The answer to each line of a list that is known whole, an unfinished one last.
fn line_by_line(sheet: Sheet, list: &[u8]) -> Vec<Vec<u8>> {
    let mut lines: Vec<&[u8]> = list.split(|&byte| byte == b'\n').collect();
    let unfinished = lines.pop().filter(|rest| !rest.is_empty());
    let mut answers: Vec<_> = lines.iter().map(|line| answered(answer_of(sheet), line)).collect();
    answers.extend(unfinished.map(|_| MALFORMED.to_vec()));
    answers
}

/// What a caller lends after a 16 in place of what it had lent.
type More = fn(usize) -> usize;

fn one_byte_more(lent: usize) -> usize {
    lent + 1
}

fn the_longest(_: usize) -> usize {
    LONGEST_ANSWER
}

/// A caller by the rule: it offers what was not taken again, after a 16 with more room. It holds each call to
/// what is promised of it, given the answers to come.
struct Caller<'a> {
    reader: Reader,
    sheet: Sheet,
    lent: usize,
    more: More,
    to_come: &'a [Vec<u8>],
}

impl<'a> Caller<'a> {
    fn new(sheet: Sheet, lent: usize, more: More, to_come: &'a [Vec<u8>]) -> Self {
        let reader = Reader::new();
        Self {
            reader,
            sheet,
            lent,
            more,
            to_come,
        }
    }

    /// The answers of the next lines joined, which come no more.
    fn joined(&mut self, lines: usize) -> Vec<u8> {
        let (come, to_come) = self.to_come.split_at(lines);
        self.to_come = to_come;
        come.concat()
    }

    /// Offers a part until it is taken; an empty one once.
    fn offers(&mut self, mut part: &[u8]) {
        let mut room = self.lent;
        loop {
            let mut out = MARKS;
            let before = self.reader.clone();
            match self.reader.take_part(self.sheet, part, &mut out[..room]) {
                Ok((took, wrote)) => {
                    assert!(took > 0 || part.is_empty());
                    let ended = part[..took].iter().filter(|&&byte| byte == b'\n').count();
                    assert_eq!(out[..wrote], self.joined(ended));
                    assert_eq!(out[wrote..], MARKS[wrote..]);
                    part = &part[took..];
                    if part.is_empty() {
                        return;
                    }
                    assert_eq!(part[0], b'\n');
                    assert!(wrote > 0, "it stopped with nothing written, and no 16");
                    assert!(wrote + self.to_come[0].len() > room, "the next answer had room");
                    room = self.lent;
                }
                Err(refusal) => {
                    assert_eq!(refusal, 16);
                    assert_eq!(self.reader, before);
                    assert_eq!(out, MARKS);
                    assert!(part.contains(&b'\n') && self.to_come[0].len() > room, "the answer had room");
                    room = (self.more)(room);
                }
            }
        }
    }

    /// Closes: after it no answer is to come, and the reader is a new one.
    fn closes(mut self) {
        let mut room = self.lent;
        loop {
            let mut out = MARKS;
            let before = self.reader.clone();
            match self.reader.close(&mut out[..room]) {
                Ok(wrote) => {
                    assert_eq!(out[..wrote], self.to_come.concat());
                    assert_eq!(out[wrote..], MARKS[wrote..]);
                    assert_eq!(self.reader, Reader::new());
                    return;
                }
                Err(refusal) => {
                    assert_eq!(refusal, 16);
                    assert_eq!(self.reader, before);
                    assert_eq!(out, MARKS);
                    assert!(!self.to_come.is_empty() && room < MALFORMED.len(), "the close had room");
                    room = (self.more)(room);
                }
            }
        }
    }
}

/// Offers a list cut in two and in three, at every place.
fn every_cut(sheet: Sheet, list: &[u8], lent: usize, more: More) {
    let answers = line_by_line(sheet, list);
    for first in 0..=list.len() {
        for second in first..=list.len() {
            let mut caller = Caller::new(sheet, lent, more, &answers);
            caller.offers(&list[..first]);
            caller.offers(&list[first..second]);
            if second < list.len() {
                caller.offers(&list[second..]);
            }
            caller.closes();
        }
    }
}

#[test]
fn the_listing_completed_in_every_cut_and_room() {
    assert_eq!(line_by_line(Sheet::Completion, &listing()).concat(), COMPLETED);
    for lent in 0..=40 {
        every_cut(Sheet::Completion, &listing(), lent, the_longest);
        every_cut(Sheet::Completion, &listing(), lent, one_byte_more);
    }
}

#[test]
fn the_listing_predicted_in_every_cut() {
    let list = listing();
    let longest = answered(predict_line, GOOD).len();
    for lent in [0, 5, longest - 1, longest, longest + 5, LONGEST_ANSWER] {
        every_cut(Sheet::Prediction, &list, lent, the_longest);
    }
    every_cut(Sheet::Prediction, &list[list.len() - 50..], 0, one_byte_more);
}

#[test]
fn the_longest_completion_in_every_cut() {
    let list = b"650 0 760 - 100000 - 15000 199000 30 200000 - - 10000\n";
    assert_eq!(line_by_line(Sheet::Completion, list)[0].len(), LONGEST_COMPLETION);
    for lent in LONGEST_COMPLETION - 5..LONGEST_COMPLETION + 5 {
        every_cut(Sheet::Completion, list, lent, |_| LONGEST_COMPLETION);
    }
}

/// Its last LF is missing, so that the close has an answer.
#[test]
fn the_listing_without_its_end() {
    let list = listing();
    for sheet in [Sheet::Completion, Sheet::Prediction] {
        let answers = line_by_line(sheet, &list[..list.len() - 1]);
        assert_eq!(answers[1..], [&b"no 2\n"[..], MALFORMED]);
        for lent in [0, 4, 5, 6, LONGEST_COMPLETION, LONGEST_ANSWER] {
            for cut in 0..list.len() {
                let mut caller = Caller::new(sheet, lent, the_longest, &answers);
                caller.offers(&list[..cut]);
                caller.offers(&list[cut..list.len() - 1]);
                caller.closes();
            }
        }
    }
}

#[test]
fn empty_parts_change_nothing() {
    let mut reader = Reader::new();
    for part in [&b""[..], b"650", b"", b" 0"] {
        let before = reader.clone();
        assert_eq!(reader.take_part(Sheet::Completion, part, &mut []), Ok((part.len(), 0)));
        assert_eq!(reader == before, part.is_empty());
    }
    assert_eq!(Reader::new().close(&mut []), Ok(0));
}

/// One that could go on, and one that is too long already, get one answer alike.
#[test]
fn unfinished_lines() {
    for length in [1, 114, 115, 116, 5000] {
        for size in [1, 7, 115, 116, 5000] {
            let mut reader = Reader::new();
            for part in vec![b'1'; length].chunks(size) {
                assert_eq!(reader.take_part(Sheet::Prediction, part, &mut []), Ok((part.len(), 0)));
            }
            let held = reader.clone();
            for lent in 0..MALFORMED.len() {
                let mut out = MARKS;
                assert_eq!(reader.close(&mut out[..lent]), Err(16));
                assert_eq!((&reader, out), (&held, MARKS));
            }
            let mut out = MARKS;
            assert_eq!(reader.close(&mut out), Ok(MALFORMED.len()));
            assert_eq!(out[..MALFORMED.len()], *MALFORMED);
            assert_eq!(reader, Reader::new());
        }
    }
}

/// A line of some length, made of what requests are made of.
fn line_of(length: usize) -> Vec<u8> {
    b"-99999 ".iter().copied().cycle().take(length).collect()
}

#[test]
fn long_lines() {
    for length in [90, 105, 106, 114, 115, 116, 117, 5000] {
        let list = listed(&[&line_of(length), GOOD, b"", &vec![b'x'; length], TOO_LARGE]);
        for sheet in [Sheet::Completion, Sheet::Prediction] {
            let answers = line_by_line(sheet, &list);
            let good = answered(answer_of(sheet), GOOD);
            assert_eq!(answers, [MALFORMED, &good, MALFORMED, MALFORMED, b"no 2\n"]);
            for size in [1, 2, 7, 44, 114, 115, 116, 117, 200, 20000] {
                let mut caller = Caller::new(sheet, 6, the_longest, &answers);
                list.chunks(size).for_each(|part| caller.offers(part));
                caller.closes();
            }
        }
    }
}

#[test]
fn a_sheet_for_each_line() {
    let mut reader = Reader::new();
    let mut out = MARKS;
    for sheet in [Sheet::Prediction, Sheet::Completion, Sheet::Prediction] {
        let answer = answered(answer_of(sheet), GOOD);
        assert_eq!(reader.take_part(sheet, GOOD, &mut []), Ok((GOOD.len(), 0)));
        assert_eq!(reader.take_part(sheet, b"\n", &mut out[..answer.len() - 1]), Err(16));
        assert_eq!(reader.take_part(sheet, b"\n", &mut out), Ok((1, answer.len())));
        assert_eq!(out[..answer.len()], answer);
    }
}

/// A reader goes on where its bytes were stored.
#[test]
fn a_reader_stored_and_read_back() {
    let mut out = MARKS;
    for cut in 0..GOOD.len() {
        let mut reader = Reader::default();
        assert_eq!(reader.take_part(Sheet::Completion, &GOOD[..cut], &mut []), Ok((cut, 0)));
        let mut other = Reader::from_bytes(*reader.as_bytes());
        let rest = [&GOOD[cut..], b"\n"].concat();
        assert_eq!(other.take_part(Sheet::Completion, &rest, &mut out), Ok((rest.len(), 33)));
        assert_eq!(out[..33], COMPLETED[..33]);
    }
}

/// The next number of a sequence that looks random.
fn next(state: &mut u64) -> u64 {
    *state ^= *state << 13;
    *state ^= *state >> 7;
    *state ^= *state << 17;
    *state
}

/// A byte, often one of those that lists are made of.
fn some_byte(state: &mut u64) -> u8 {
    match next(state) % 8 {
        0 => (next(state) >> 32) as u8,
        1 => b'\n',
        _ => b"0123456789- "[next(state) as usize % 12],
    }
}

#[test]
fn readers_of_any_bytes() {
    let mut state = 1;
    for round in 0..20_000 {
        let mut bytes = [0; READER];
        bytes.fill_with(|| some_byte(&mut state));
        bytes[READER - 1] = round as u8;
        let part: Vec<u8> = (0..next(&mut state) % 60).map(|_| some_byte(&mut state)).collect();
        let sheet = [Sheet::Completion, Sheet::Prediction][round / 256 % 2];
        let room = next(&mut state) as usize % 50;
        let mut out = MARKS;
        let mut reader = Reader::from_bytes(bytes);
        match reader.take_part(sheet, &part, &mut out[..room]) {
            Ok((took, wrote)) => {
                assert!(took <= part.len() && wrote <= room && (took > 0 || part.is_empty()));
                assert_eq!(out[wrote..], MARKS[wrote..]);
            }
            Err(refusal) => {
                assert_eq!(refusal, 16);
                assert_eq!((reader.as_bytes(), out), (&bytes, MARKS));
            }
        }
        let wrote = reader.close(&mut out).expect("room for the close");
        assert!(wrote == 0 || out[..wrote] == *MALFORMED);
        assert_eq!(reader, Reader::new());
    }
}

/// A writer that takes few bytes in a call, and meets an error in some calls.
struct Slow {
    written: Vec<u8>,
    at_most: usize,
    calls: usize,
    flushed: usize,
    fault: fn(usize) -> Option<ErrorKind>,
}

impl Slow {
    fn new(at_most: usize, fault: fn(usize) -> Option<ErrorKind>) -> Self {
        Self {
            written: Vec::new(),
            at_most,
            calls: 0,
            flushed: 0,
            fault,
        }
    }

    /// Counts a call, and gives the error that it meets.
    fn called(&mut self) -> io::Result<()> {
        self.calls += 1;
        assert!(self.calls < 100_000, "it is called without end");
        (self.fault)(self.calls - 1).map_or(Ok(()), |kind| Err(kind.into()))
    }
}

impl Write for Slow {
    fn write(&mut self, bytes: &[u8]) -> io::Result<usize> {
        self.called()?;
        let count = bytes.len().min(self.at_most);
        self.written.extend(&bytes[..count]);
        Ok(count)
    }

    fn flush(&mut self) -> io::Result<()> {
        self.called()?;
        self.flushed = self.written.len();
        Ok(())
    }
}

fn never(_: usize) -> Option<ErrorKind> {
    None
}

/// The list that the writers are tried with: some of each kind of line, and an unfinished one.
fn tried() -> Vec<u8> {
    let mut list = listed(&[GOOD, TOO_LARGE, &line_of(116), b"", GOOD, ABOVE]);
    list.extend(b"650 0 ");
    list
}

/// Writes a list in parts of some size and finishes, calling again after each error; gives how many there were.
fn written_whole(answers: &mut Answers<Slow>, list: &[u8], size: usize) -> usize {
    let mut errors = 0;
    for mut part in list.chunks(size) {
        while !part.is_empty() {
            match answers.write(part) {
                Ok(took) => {
                    assert!(took > 0);
                    part = &part[took..];
                }
                Err(_) => errors += 1,
            }
        }
    }
    while answers.finish().is_err() {
        errors += 1;
    }
    errors
}

/// Holds what a writer got, in parts of several sizes and of two lists one after the other, to the whole.
fn answers_through(at_most: usize, fault: fn(usize) -> Option<ErrorKind>) {
    let list = tried();
    for sheet in [Sheet::Completion, Sheet::Prediction] {
        let whole = line_by_line(sheet, &list).concat();
        for size in [1, 3, 44, 45, 100, list.len()] {
            let mut answers = Answers::new(sheet, Slow::new(at_most, fault));
            written_whole(&mut answers, &list, size);
            assert_eq!(answers.get_ref().written, whole);
            assert_eq!(answers.get_ref().flushed, whole.len());
            written_whole(&mut answers, &list, size);
            assert_eq!(answers.into_inner().written, whole.repeat(2));
        }
    }
}

#[test]
fn answers_to_a_writer_that_takes_all() {
    answers_through(usize::MAX, never);
    let list = tried();
    let mut answers = Answers::new(Sheet::Completion, Vec::new());
    answers.write_all(&list).expect("a vector takes all");
    answers.finish().expect("a vector takes all");
    assert_eq!(answers.into_inner(), line_by_line(Sheet::Completion, &list).concat());
}

#[test]
fn answers_to_a_writer_of_few_bytes() {
    answers_through(1, never);
    answers_through(7, never);
}

#[test]
fn answers_to_a_writer_that_is_interrupted() {
    answers_through(1, |call| (call % 2 == 0).then_some(ErrorKind::Interrupted));
    answers_through(10, |call| (call % 3 != 0).then_some(ErrorKind::Interrupted));
    let mut answers = Answers::new(
        Sheet::Completion,
        Slow::new(1, |call| (call % 2 == 0).then_some(ErrorKind::Interrupted)),
    );
    answers.write_all(&listing()).expect("an interruption is no error");
    assert_eq!(answers.get_ref().written, COMPLETED);
}

#[test]
fn answers_to_a_writer_that_would_block() {
    answers_through(1, |call| (call % 2 == 0).then_some(ErrorKind::WouldBlock));
    answers_through(10, |call| (call % 3 != 0).then_some(ErrorKind::WouldBlock));
    answers_through(usize::MAX, |call| (call % 5 != 4).then_some(ErrorKind::Other));
}

/// Each of the first calls of the writer, its flush among them, fails in turn, alone or with the next three.
#[test]
fn answers_to_a_writer_that_fails_for_a_time() {
    macro_rules! failing {
        ($($call:literal)*) => {
            $(
                answers_through(20, |call| (call == $call).then_some(ErrorKind::Other));
                answers_through(20, |call| ($call..$call + 4).contains(&call).then_some(ErrorKind::WouldBlock));
                answers_through(usize::MAX, |call| ($call..$call + 4).contains(&call).then_some(ErrorKind::Other));
            )*
        };
    }
    failing!(0 1 2 3 4 5 6 7 8 9 10 11 12 13 14 15);
}

/// The answer to a finished line leaves with the write of its LF; an unfinished line waits through a flush.
#[test]
fn answers_leave_at_once() {
    let mut answers = Answers::new(Sheet::Completion, Slow::new(usize::MAX, never));
    assert_eq!(answers.write(b"").expect("an empty part"), 0);
    answers.write_all(&[GOOD, b"\n851"].concat()).expect("taken");
    assert_eq!(answers.get_ref().written, COMPLETED[..33]);
    assert_eq!(answers.get_ref().flushed, 0);
    answers.flush().expect("flushed");
    assert_eq!(answers.get_ref().flushed, 33);
    answers.write_all(&[&TOO_LARGE[3..], b"\n"].concat()).expect("taken");
    assert_eq!(answers.get_ref().written, COMPLETED[..38]);
}

/// The part of a failing call is taken, once, where its answers wait, and not taken where earlier ones do.
#[test]
fn an_error_waits_for_the_next_call() {
    let mut answers = Answers::new(
        Sheet::Completion,
        Slow::new(30, |call| (1..4).contains(&call).then_some(ErrorKind::Other)),
    );
    let line = listed(&[GOOD]);
    assert_eq!(answers.write(&line).expect("the error waits"), line.len());
    assert_eq!(answers.get_ref().written, COMPLETED[..30]);
    let reader = answers.reader.clone();
    assert_eq!(answers.write(&line).expect_err("the error").kind(), ErrorKind::Other);
    assert_eq!(answers.flush().expect_err("the error again").kind(), ErrorKind::Other);
    assert_eq!(answers.reader, reader);
    answers.flush().expect("it is over");
    assert_eq!(answers.get_ref().written, COMPLETED[..33]);
}

#[test]
fn a_writer_that_takes_nothing() {
    let mut answers = Answers::new(Sheet::Completion, Slow::new(0, never));
    assert_eq!(answers.write(b"650\n0").expect("the error waits"), 5);
    for _ in 0..2 {
        assert_eq!(answers.write(b" 760\n").expect_err("an error").kind(), ErrorKind::WriteZero);
        assert_eq!(answers.finish().expect_err("an error").kind(), ErrorKind::WriteZero);
    }
    answers.writer.at_most = 4;
    answers.finish().expect("it takes some now");
    assert_eq!(answers.get_ref().written, MALFORMED.repeat(2));
}

/// The close's answer is pending where a finish failed, and a further one adds nothing.
#[test]
fn finished_after_an_error() {
    let mut answers = Answers::new(
        Sheet::Completion,
        Slow::new(4, |call| (1..3).contains(&call).then_some(ErrorKind::Other)),
    );
    assert_eq!(answers.write(b"650").expect("taken"), 3);
    for _ in 0..2 {
        assert_eq!(answers.finish().expect_err("an error").kind(), ErrorKind::Other);
        assert_eq!(answers.get_ref().written, MALFORMED[..4]);
    }
    for _ in 0..2 {
        answers.finish().expect("it is over");
        assert_eq!(answers.get_ref().written, *MALFORMED);
    }
}
