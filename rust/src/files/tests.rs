//! Lists through files and back, every refusal of both ways, and records answered as their lines are.

use super::*;
use crate::tests::{answered, ABOVE, GOOD, MARK, TOO_LARGE};
use crate::{complete_line, predict_line, spectrum, LONGEST_ANSWER};

/// A line with every field that may be blank, and one with inferred figures and minus signs.
const BLANK: &[u8] = b"- - - - - - - - - - - - -";
const INFERRED: &[u8] = b"~650 ~-90 760 ~40 10000 0 ~3000 4000 -30 ~5000 - 100 999999";

fn list_of(lines: &[&[u8]]) -> Vec<u8> {
    lines.iter().flat_map(|line| line.iter().copied().chain([b'\n'])).collect()
}

fn five() -> Vec<u8> {
    list_of(&[GOOD, TOO_LARGE, ABOVE, BLANK, INFERRED])
}

#[test]
fn a_list_is_the_same_after_a_file() {
    for list in [Vec::new(), list_of(&[GOOD]), five()] {
        let file = pack(&list).expect("the list is well-formed");
        assert_eq!(
            file.len(),
            FILE_HEAD + RECORD * list.iter().filter(|&&byte| byte == b'\n').count()
        );
        assert_eq!(unpack(&file), Ok(list));
    }
}

#[test]
fn the_bytes_are_those_of_the_format() {
    let file = pack(&list_of(&[b"650 -90 ~760 - 256 - - 65536 1 - - - 0"])).expect("the line is well-formed");
    let blank = [0x80, 0, 0, 0];
    let mut expected = b"GMQ\0\x01\0\x01".to_vec();
    for number in [
        [0, 0, 2, 0x8a],
        [0xff, 0xff, 0xff, 0xa6],
        [0, 0, 2, 0xf8],
        blank,
        [0, 0, 1, 0],
        blank,
        blank,
    ] {
        expected.extend(number);
    }
    for number in [[0, 1, 0, 0], [0, 0, 0, 1], blank, blank, blank, [0; 4]] {
        expected.extend(number);
    }
    expected.extend([0, 0, 1, 3, 0, 3, 3, 0, 0, 3, 3, 3, 0]);
    assert_eq!(file, expected);
}

#[test]
fn the_writer_refuses_in_its_order() {
    assert_eq!(pack(b"650 0 760\n"), Err(14));
    assert_eq!(pack(GOOD), Err(14), "an unfinished last line");
    let many = list_of(&vec![BLANK; MOST_RECORDS + 1]);
    assert_eq!(pack(&many), Err(20));
    assert_eq!(pack(&[&many[..], b"\n"].concat()), Err(14), "14 comes before 20");
    assert_eq!(
        pack(&many[BLANK.len() + 1..]).map(|file| file.len()),
        Ok(FILE_HEAD + RECORD * MOST_RECORDS)
    );
    for lent in 0..FILE_HEAD + RECORD {
        let mut bytes = vec![MARK; lent];
        assert_eq!(pack_into(&list_of(&[GOOD]), &mut bytes), Err(16));
        assert!(bytes.iter().all(|&byte| byte == MARK));
    }
}

#[test]
fn the_reader_refuses_in_its_order() {
    let file = pack(&five()).expect("the list is well-formed");
    assert_eq!(unpack(&file[..4]), Err(19));
    assert_eq!(unpack(&file[..6]), Err(20));
    assert_eq!(unpack(&[&file[..], b"\0"].concat()), Err(20));
    let changed = |place: usize, value: u8| {
        let mut other = file.clone();
        other[place] = value;
        other
    };
    assert_eq!(unpack(&changed(4, 2)), Err(19), "version 2");
    assert_eq!(unpack(&changed(FILE_HEAD + 52, 2)), Err(21), "an estimated figure");
    assert_eq!(
        unpack(&changed(FILE_HEAD + 52, 3)),
        Err(21),
        "a number that is blank by its origin"
    );
    assert_eq!(unpack(&changed(FILE_HEAD, 0x80)), Err(21), "a number below 0 in M");
    assert_eq!(
        unpack(&changed(FILE_HEAD + 52, 2)[..file.len() - 1]),
        Err(20),
        "20 comes before 21"
    );
    let mut bytes = [MARK; 43];
    assert_eq!(unpack_into(&pack(&list_of(&[GOOD])).unwrap(), &mut bytes), Err(16));
    assert_eq!(bytes, [MARK; 43]);
}

#[test]
fn a_record_is_answered_as_its_line() {
    let lines = [
        GOOD,
        TOO_LARGE,
        ABOVE,
        BLANK,
        b"650 0 760 - 10000 - ~3000 4000 30 - - - ~2000",
    ];
    let file = pack(&list_of(&lines)).expect("the lines are well-formed");
    let records = records(&file).expect("the file is one of ours");
    assert_eq!(records.len(), lines.len());
    for (record, line) in records.zip(lines) {
        assert_eq!(record.spectrum(), spectrum(line));
        let mut out = [0; LONGEST_ANSWER];
        assert_eq!(
            record.answer(Sheet::Completion, &mut out),
            Ok(&answered(complete_line, line)[..])
        );
        assert_eq!(
            record.answer(Sheet::Prediction, &mut out),
            Ok(&answered(predict_line, line)[..])
        );
        assert_eq!(record.answer(Sheet::Completion, &mut [MARK; 4]), Err(16));
    }
    assert_eq!(super::records(&file[..20]).map(|records| records.len()), Err(20));
}
