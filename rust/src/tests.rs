//! Each function called, refused and lent too little.

use super::*;

/// Document 01's listing: a request that is accepted, one with refusal 2, one with refusal 10.
pub(crate) const GOOD: &[u8] = b"650 0 760 - 10000 - 3000 4000 30 - - - 2000";
pub(crate) const TOO_LARGE: &[u8] = b"851 0 760 - 10000 - 3000 4000 30 - - - 2000";
pub(crate) const ABOVE: &[u8] = b"650 90 300 40 10000 - 3000 0 90 - - - 2000";

/// The longest RRUP that RJB 4000, ZTOR 3000 and W 10000 allow, and a metre more: refusal 18.
const LONGEST_DISTANCE: &[u8] = b"650 0 760 - 10000 - 3000 4000 30 13602 - - 2000";
const TOO_FAR: &[u8] = b"650 0 760 - 10000 - 3000 4000 30 13603 - - 2000";

/// A soft site near a large earthquake.
const SOFT: &[u8] = b"800 90 150 45 20000 - 1000 0 90 1000 - - 10000";

/// Lines that cannot be read.
const MALFORMED: [&[u8]; 6] = [
    b"",
    b"\n",
    b"650",
    b"650 0 760 - 10000 - 3000 4000 30 - - - 2000\n",
    b"650 0 760 - 10000 - 3000 4000 30 - - -  2000",
    &[b'1'; 4096],
];

/// The periods of measures 0 to 20, in thousandths of a second.
const TABULATED: [u64; 21] = [
    10, 20, 30, 50, 75, 100, 150, 200, 250, 300, 400, 500, 750, 1000, 1500, 2000, 3000, 4000, 5000, 7500, 10_000,
];

/// Periods out of range; the lower half of one of them is in it.
const NO_PERIODS: [u64; 5] = [0, 9, 10_001, (1 << 32) + 370, u64::MAX];

const PGA: u64 = 21;
pub(crate) const MARK: u8 = 0xa5;

pub(crate) type Answer = for<'a> fn(&[u8], &'a mut [u8]) -> Option<&'a [u8]>;

pub(crate) fn answered(answer: Answer, line: &[u8]) -> Vec<u8> {
    answer(line, &mut [MARK; LONGEST_ANSWER])
        .expect("the longest answer fits")
        .to_vec()
}

/// Every shorter buffer is refused as it was; in its own length and in more, what surrounds the answer is
/// as it was.
fn every_length(answer: Answer, line: &[u8]) {
    let whole = answered(answer, line);
    for lent in 0..whole.len() {
        let mut bytes = vec![MARK; lent + 20];
        assert_eq!(answer(line, &mut bytes[10..10 + lent]), None);
        assert!(bytes.iter().all(|&byte| byte == MARK), "{lent} bytes lent");
    }
    for lent in [whole.len(), whole.len() + 5] {
        let mut bytes = vec![MARK; lent + 20];
        assert_eq!(answer(line, &mut bytes[10..10 + lent]), Some(&whole[..]));
        assert_eq!(bytes[10..10 + whole.len()], whole);
        assert!(bytes[..10].iter().chain(&bytes[10 + whole.len()..]).all(|&byte| byte == MARK));
    }
}

#[test]
fn completes_document_01s_listing() {
    assert_eq!(answered(complete_line, GOOD), b"ok 90 10000 3000 5000 2000 emmem\n");
    assert_eq!(answered(complete_line, TOO_LARGE), b"no 2\n");
    assert_eq!(answered(complete_line, ABOVE), b"no 10\n");
}

#[test]
fn the_longest_completion() {
    let line = b"650 0 760 - 100000 - 15000 199000 30 200000 - - 10000";
    let answer = b"ok 90 100000 15000 200000 10000 emmmm\n";
    assert_eq!(answer.len(), LONGEST_COMPLETION);
    assert_eq!(complete_line(line, &mut [MARK; LONGEST_COMPLETION]), Some(&answer[..]));
    assert_eq!(complete_line(line, &mut [MARK; LONGEST_COMPLETION - 1]), None);
}

#[test]
fn the_longest_distance() {
    assert_eq!(answered(complete_line, LONGEST_DISTANCE), b"ok 90 10000 3000 13602 2000 emmmm\n");
    assert!(spectrum(LONGEST_DISTANCE).is_ok());
    assert_eq!(answered(complete_line, TOO_FAR), b"no 18\n");
    assert_eq!(answered(predict_line, TOO_FAR), b"no 18\n");
}

/// Measured or inferred, the letters say which and the numbers are the same.
#[test]
fn an_inferred_figure_changes_no_number() {
    let line = b"~650 ~0 ~760 - ~10000 - 3000 ~4000 30 - - - ~2000";
    assert_eq!(answered(complete_line, line), b"ok 90 10000 3000 5000 2000 eimei\n");
    assert_eq!(spectrum(line), spectrum(GOOD));
    assert_eq!(measure(line, PGA), measure(GOOD, PGA));
    assert_eq!(period(line, 370), period(GOOD, 370));
    assert_eq!(spectrum(b"650 0 ~- - 10000 - 3000 4000 30 - - - 2000"), Err(14));
}

#[test]
fn the_longest_line() {
    let mut line = b"~999999 ~-999999".to_vec();
    for field in 3..=13 {
        line.extend(if field == 9 { &b" ~-999999"[..] } else { &b" ~999999"[..] });
    }
    assert_eq!(line.len(), 105);
    assert_eq!(spectrum(&line), Err(1));
    line.resize(LONGEST_LINE, b'9');
    assert_eq!(spectrum(&line), Err(14));
}

#[test]
fn predicts_the_rows_of_the_spectrum() {
    let text = String::from_utf8(answered(predict_line, GOOD)).expect("ASCII");
    let rows = spectrum(GOOD).expect("accepted");
    let lines: Vec<String> = rows
        .iter()
        .enumerate()
        .map(|(k, row)| format!("{k} {} {} {}\n", row[0], row[1], row[4]))
        .collect();
    assert_eq!(text, lines.concat());
    assert_eq!(answered(predict_line, TOO_LARGE), b"no 2\n");
    assert_eq!(answered(predict_line, ABOVE), b"no 10\n");
}

#[test]
fn a_measure_is_that_of_the_spectrum() {
    for line in [GOOD, SOFT] {
        let rows = spectrum(line).expect("accepted");
        for (k, row) in rows.iter().enumerate() {
            assert_eq!(measure(line, k as u64), Ok((row[1], row[4])));
            assert!(row.iter().all(|number| number.fract() == 0.0));
        }
    }
}

/// Eight periods up to 0.25 s have medians of their own below PGA's there, each its own sigma; 0.30 s does not.
#[test]
fn short_periods_are_not_below_pga() {
    let rows = spectrum(SOFT).expect("accepted");
    let pga = rows[PGA as usize];
    assert!((pga[0] - -604614.0).abs() <= 1.0);
    for row in &rows[..=8] {
        assert_eq!(row[..2], pga[..2]);
    }
    for row in &rows[1..=8] {
        assert!(row[2..].iter().zip(&pga[2..]).any(|(own, other)| own != other));
    }
    assert!((rows[9][0] - -536968.0).abs() <= 1.0);
}

/// What the published equations give for the peak acceleration of document 01's line.
#[test]
fn the_peak_acceleration() {
    let (median, total) = measure(GOOD, PGA).expect("accepted");
    let ln = spectrum(GOOD).expect("accepted")[PGA as usize][0];
    assert!((ln - -1021505.0).abs() <= 5.0);
    assert!((total - 519476.0).abs() <= 5.0);
    assert!(((median / 1e10).ln() * 1e6 - ln).abs() <= 5.0);
}

#[test]
fn a_tabulated_period_is_that_of_the_spectrum() {
    assert_eq!((TABULATED[0], TABULATED[20]), (SHORTEST_PERIOD, LONGEST_PERIOD));
    for line in [GOOD, SOFT] {
        let rows = spectrum(line).expect("accepted");
        for (at, row) in TABULATED.iter().zip(rows) {
            assert_eq!(period(line, *at), Ok(row), "{at}");
        }
    }
}

/// Whether each number of a row is whole and between those of its neighbours; with one to spare, and more of the median,
/// since each is rounded.
fn lies_between(row: [f64; COLUMNS], shorter: [f64; COLUMNS], longer: [f64; COLUMNS]) -> bool {
    (0..COLUMNS).all(|k| {
        let (low, high) = (shorter[k].min(longer[k]), shorter[k].max(longer[k]));
        let spare = if k == 1 { 1.0 + row[k] / 250_000.0 } else { 1.0 };
        (low - spare..=high + spare).contains(&row[k]) && row[k].fract() == 0.0
    })
}

#[test]
fn every_other_period_lies_between_its_neighbours() {
    for line in [GOOD, SOFT] {
        let rows = spectrum(line).expect("accepted");
        for (gap, ends) in TABULATED.windows(2).enumerate() {
            for at in ends[0] + 1..ends[1] {
                let row = period(line, at).expect("accepted");
                assert!(lies_between(row, rows[gap], rows[gap + 1]), "{at}: {row:?}");
            }
        }
    }
}

/// The valve's spring at 0.37 s, by the published equations and the line between 0.30 and 0.40 s.
#[test]
fn the_valves_spring() {
    let expected = [-495903.0, 6090208837.0, 541813.0, 216458.0, 583453.0, 618044.0];
    let row = period(GOOD, 370).expect("accepted");
    for (k, (number, near)) in row.into_iter().zip(expected).enumerate() {
        let bound = if k == 1 { 2.0 + near / 500_000.0 } else { 1.0 };
        assert!((number - near).abs() <= bound, "{number} is not near {near}");
    }
}

#[test]
fn refusals_in_their_order() {
    for line in MALFORMED {
        assert_eq!(answered(complete_line, line), b"no 14\n");
        assert_eq!(answered(predict_line, line), b"no 14\n");
        assert_eq!(measure(line, 24), Err(14));
        assert_eq!(spectrum_into(line, &mut []), Err(14));
        assert_eq!(period(line, 370), Err(14));
        assert!(NO_PERIODS.iter().all(|&at| period(line, at) == Err(14)));
    }
    for (line, refusal) in [(TOO_LARGE, 2), (ABOVE, 10), (TOO_FAR, 18)] {
        assert_eq!(measure(line, PGA), Err(refusal));
        assert_eq!(measure(line, 24), Err(refusal));
        assert_eq!(spectrum(line), Err(refusal));
        assert_eq!(spectrum_into(line, &mut []), Err(refusal));
        assert_eq!(period(line, 370), Err(refusal));
        assert!(NO_PERIODS.iter().all(|&at| period(line, at) == Err(refusal)));
    }
    assert!(measure(GOOD, 23).is_ok());
    assert_eq!(measure(GOOD, 24), Err(15));
    assert_eq!(measure(GOOD, u64::MAX), Err(15));
    assert_eq!(spectrum_into(GOOD, &mut []), Err(16));
    assert!(period(GOOD, SHORTEST_PERIOD).is_ok() && period(GOOD, LONGEST_PERIOD).is_ok());
    assert!(NO_PERIODS.iter().all(|&at| period(GOOD, at) == Err(17)));
}

#[test]
fn lines_in_every_length() {
    for answer in [complete_line as Answer, predict_line] {
        for line in [GOOD, TOO_LARGE, ABOVE, b""] {
            every_length(answer, line);
        }
    }
}

#[test]
fn a_refused_measure_changes_nothing() {
    for (line, number) in [(GOOD, 24), (ABOVE, PGA), (&b""[..], PGA)] {
        let mut median = f64::from_bits(0x7ff8_0000_0000_abcd);
        let mut total = -0.0;
        // SAFETY: as in `measure`.
        let refusal = unsafe { xanhupive_measure(line.as_ptr(), line.len(), number, &mut median, &mut total) };
        assert_ne!(refusal, 0);
        assert_eq!(median.to_bits(), 0x7ff8_0000_0000_abcd);
        assert_eq!(total.to_bits(), (-0.0f64).to_bits());
    }
}

#[test]
fn spectra_in_every_length() {
    let mark = f64::from_bits(0x7ff8_0000_0000_abcd);
    let kept = |numbers: &[f64]| numbers.iter().all(|number| number.to_bits() == mark.to_bits());
    let whole = spectrum(GOOD).expect("accepted");
    for lent in 0..NUMBERS + 9 {
        let mut numbers = vec![mark; lent + 20];
        assert_eq!(spectrum_into(ABOVE, &mut numbers[10..10 + lent]), Err(10));
        assert!(kept(&numbers));
        let answer = spectrum_into(GOOD, &mut numbers[10..10 + lent]);
        if lent < NUMBERS {
            assert_eq!(answer, Err(16));
            assert!(kept(&numbers), "{lent} numbers lent");
        } else {
            assert_eq!(answer, Ok(()));
            assert_eq!(&numbers[10..10 + NUMBERS], whole.as_flattened());
            assert!(kept(&numbers[..10]) && kept(&numbers[10 + NUMBERS..]));
        }
    }
}

/// What `period` never does: a row of any length lent. A period out of range is refused before a short row.
#[test]
fn rows_in_every_length() {
    let mark = f64::from_bits(0x7ff8_0000_0000_abcd);
    let kept = |numbers: &[f64]| numbers.iter().all(|number| number.to_bits() == mark.to_bits());
    let whole = period(GOOD, 370).expect("accepted");
    for lent in 0..COLUMNS + 9 {
        let mut numbers = vec![mark; lent + 20];
        let row = &mut numbers[10..10 + lent];
        let mut lend = |line: &[u8], at| {
            // SAFETY: the two slices are valid for their lengths and, one of them lent alone, apart.
            unsafe { xanhupive_period(line.as_ptr(), line.len(), at, row.as_mut_ptr(), row.len()) }
        };
        assert_eq!((lend(b"", 9), lend(ABOVE, 9), lend(GOOD, 9)), (14, 10, 17));
        let refusal = lend(GOOD, 370);
        let written = if lent < COLUMNS { 0 } else { COLUMNS };
        assert_eq!(refusal, if lent < COLUMNS { 16 } else { 0 });
        assert_eq!(numbers[10..10 + written], whole[..written]);
        assert!(kept(&numbers[..10]) && kept(&numbers[10 + written..]), "{lent} numbers lent");
    }
}

#[test]
fn many_threads_at_once() {
    let alone = answered(predict_line, GOOD);
    std::thread::scope(|scope| {
        for _ in 0..8 {
            scope.spawn(|| (0..200).for_each(|_| assert_eq!(answered(predict_line, GOOD), alone)));
        }
    });
}
