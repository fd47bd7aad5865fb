//! The worked bytes of the repository (tests/vectors/*.txt), to which all who write or read them are held.
#![forbid(unsafe_code)]

use crate::question::{self, Question};
use crate::report::Report;
use crate::{
    Answer, Cluster, Fault, Fields, Frame, Instance, Leading, OpenInstance, OwnedValues, Phase, Reading, Receipt,
    Reference, State, Sum,
};

const WIRE: &str = include_str!("../../../../tests/vectors/wire.txt");
const REQUESTS: &str = include_str!("../../../../tests/vectors/requests.txt");
const FRAMES: &str = include_str!("../../../../tests/vectors/frames.txt");
const OPENINGS: &str = include_str!("../../../../tests/vectors/openings.txt");

/// The bytes of a line that is indented and written in hexadecimal.
fn hex(line: &str) -> Vec<u8> {
    let digits: Vec<u8> = line.bytes().filter(|it| *it != b' ').collect();
    let value = |digit: u8| char::from(digit).to_digit(16).expect("a hexadecimal digit") as u8;
    digits.chunks(2).map(|it| 16 * value(it[0]) + value(it[1])).collect()
}

/// The bytes behind this name in tests/vectors/wire.txt. Lines that are indented further go on with the one before.
pub(crate) fn vector(name: &str) -> Vec<u8> {
    let mut lines = WIRE.lines().filter_map(|line| line.strip_prefix("    "));
    let first = lines.find_map(|line| line.strip_prefix(name)?.strip_prefix(' ')).expect("the name is there");
    let more = lines.take_while(|line| line.starts_with(' ')).collect::<String>();
    hex(&format!("{first}{more}"))
}

/// What is read of an answer: its kind and its body, behind a length that is right.
fn answer(name: &str) -> Vec<u8> {
    let bytes = vector(name);
    let (length, answer) = bytes.split_first_chunk().expect("a length");
    assert_eq!(u32::from_be_bytes(*length) as usize, answer.len(), "{name}");
    answer.to_vec()
}

#[test]
fn the_first_opening() {
    let lines: String = OPENINGS.lines().filter_map(|line| line.strip_prefix("    ")).take(2).collect();
    assert_eq!(Cluster::Three.first_opening(), hex(&lines));
}

/// The indented lines of tests/vectors/openings.txt, so many from the one on that begins so.
fn opening_lines(begin: &str, count: usize) -> Vec<u8> {
    let lines = OPENINGS.lines().filter_map(|line| line.strip_prefix("    "));
    hex(&lines.skip_while(|line| !line.starts_with(begin)).take(count).collect::<String>())
}

#[test]
fn a_reference_word_for_word() {
    let bytes = opening_lines("45504f52", 3);
    let sum = std::array::from_fn(|at| at as u8);
    let reference = Reference::new(Cluster::Three, 2, 321, sum).unwrap();
    assert_eq!(reference.bytes(), bytes);
    assert_eq!(Reference::read(&bytes), Some(reference));
    assert_eq!(reference.binding(&[9; 32]), [b"EPOB\x03", &bytes[50..], &[9; 32]].concat());
    for at in 0..bytes.len() {
        assert_eq!(Reference::read(&bytes[..at]), None, "cut at {at}");
        let mut changed = bytes.clone();
        changed[at] ^= 1;
        assert_eq!(Reference::read(&changed), None, "changed at {at}");
    }
    assert_eq!(Reference::read(&[&bytes[..], &[0]].concat()), None);
    for (at, field) in [(5, &[4][..]), (6, &[0; 4]), (6, &[0, 0, 0, 1]), (10, &[0, 0, 0, 0, 0, 0, 0, 42])] {
        let mut front = bytes[..50].to_vec();
        front[at..at + field.len()].copy_from_slice(field);
        let digest = Sum::of(&front);
        front.extend(digest);
        assert_eq!(Reference::read(&front), None, "{field:?} at {at}");
    }
}

const ONE: Instance = Instance { replica: 1, number: 258 };
const SEVENTH: Instance = Instance { replica: 0, number: 7 };

#[test]
fn requests_word_for_word() {
    for (name, question) in [
        ("state", Question::State),
        ("interfering", Question::Interfering(b"k")),
        ("read", Question::Read { key: b"k", found: &[ONE, SEVENTH] }),
    ] {
        let mut out = Vec::new();
        question.push(&mut out);
        assert_eq!(out, vector(name), "{name}");
    }
}

#[test]
fn a_key_that_cannot_be_has_no_length() {
    let mut out = Vec::new();
    Question::Read { key: &[7; 257], found: &[] }.push(&mut out);
    assert_eq!(out[..7], [0, 0, 1, 7, 17, 0, 7]);
}

fn receipt<'a>(answer: Answer<'a>, bytes: &'a [u8]) -> Receipt<'a> {
    Receipt { client: 9, request: 2, instance: ONE, seen: 3, replica: 1, entry: 4, stamp: 5, answer, bytes }
}

#[test]
fn receipts_word_for_word() {
    let (both, none) = (OwnedValues::new([None, Some("old")]).unwrap(), OwnedValues::default());
    let one = OwnedValues::new([Some("")]).unwrap();
    for (name, answer) in [
        ("done", Answer::Done(both.lent())),
        ("done-untold", Answer::Done(none.lent())),
        ("undone", Answer::Undone(one.lent())),
        ("absent", Answer::Absent),
        ("present", Answer::Present(b"old")),
        ("lost", Answer::Lost),
        ("closed", Answer::Closed),
        ("ordered", Answer::Ordered),
    ] {
        let bytes = vector(name);
        let mut fields = Fields::new(&bytes);
        assert_eq!(Receipt::read(&mut fields), Some(receipt(answer, &bytes)), "{name}");
        assert!(fields.is_over());
        for cut in 0..bytes.len() {
            assert_eq!(Receipt::read(&mut Fields::new(&bytes[..cut])), None, "{name}");
        }
        let mut out = Vec::new();
        answer.write(&mut out);
        assert_eq!(out, bytes[32..], "{name}");
    }
    for name in ["bad-done-many", "bad-undone"] {
        assert_eq!(Answer::read(&mut Fields::new(&vector(name))), None, "{name}");
    }
}

/// The frame of a command over many keys has the command's body as it is proposed, behind its header.
#[test]
fn a_frame_of_many_keys() {
    let frame =
        hex(line(FRAMES, "4550 03 01 00 01 0000 00000001 0000000000000001 00 0001 0000 00 00 0000 00 00000001 0a"));
    assert_eq!(frame.len(), 62);
    assert_eq!(frame[48..], vector("tx")[7..]);
}

#[test]
fn refusals_word_for_word() {
    for (name, fault) in [
        ("no-room", Fault::SpaceFull),
        ("too-few", Fault::TooFewAnswers),
        ("not-committed", Fault::NotCommitted(ONE)),
        ("malformed", Fault::OutOfRange),
    ] {
        assert_eq!(question::refusal(&answer(name)), Some(fault), "{name}");
    }
    for bytes in [&[][..], &[0], &[3, 0], &[2, 11, 0, 0, 0], &[2, 4, 0, 0], &[2, 4, 0, 0, 0, 0], &[2, 10, 0, 0, 0]] {
        assert_eq!(question::refusal(bytes), None, "{bytes:?}");
    }
}

#[test]
fn answers_word_for_word() {
    let state = State { generation: 2, entries: 3, used: 260, dependencies: 1_286, is_sealed: true, stamp: 7 };
    assert_eq!(question::state(&answer("state-told")), Some(state));
    assert_eq!(question::interfering(&answer("found-none")), Some(vec![]));
    assert_eq!(question::interfering(&answer("found")), Some(vec![SEVENTH, ONE]));
    for (name, reading) in [
        ("read-absent", Reading::Absent),
        ("read-empty", Reading::Present(b"")),
        ("read-value", Reading::Present(b"v")),
        ("read-waits", Reading::Waits(ONE)),
        ("read-closed", Reading::Closed),
    ] {
        assert_eq!(Reading::read(&answer(name)), Some(reading), "{name}");
    }
    for name in [
        "no-value",
        "value",
        "open",
        "synced",
        "state-told",
        "found-none",
        "found",
        "read-absent",
        "read-empty",
        "read-value",
        "read-waits",
        "read-closed",
    ] {
        let bytes = answer(name);
        for odd in (0..bytes.len()).map(|cut| bytes[..cut].to_vec()).chain([[&bytes[..], &[0]].concat()]) {
            assert!(question::state(&odd).is_none() && question::interfering(&odd).is_none(), "{name}: {odd:?}");
            assert!(Reading::read(&odd).is_none(), "{name}: {odd:?}");
        }
    }
    assert!(Reading::read(&[12, 4]).is_none() && Reading::read(&[3, 0]).is_none());
    assert!(question::interfering(&[10, 0, 0, 0, 0]).is_none() && question::state(&[6, 0, 0, 1, 2]).is_none());
}

#[test]
fn the_report() {
    let (bytes, given) = (answer("report"), vector("absent"));
    let report = Report::read(&bytes).unwrap();
    assert_eq!((report.entries, report.is_sealed), (4, true));
    assert_eq!(report.frames().collect::<Vec<_>>(), [Frame { to: 2, bytes: &[6, 7] }]);
    assert_eq!(report.receipts().collect::<Vec<_>>(), [receipt(Answer::Absent, &given)]);
    assert_eq!(report.committed().collect::<Vec<_>>(), [Instance { replica: 0, number: 7 }]);
    let leading = Leading { phase: Phase::Accepting, answers: 1 };
    let open =
        OpenInstance { instance: Instance { replica: 2, number: 3 }, since: None, led: Some(leading), spared: None };
    assert_eq!(report.open().collect::<Vec<_>>(), [open]);
    for cut in 0..bytes.len() {
        assert_eq!(Report::read(&bytes[..cut]), None, "cut at {cut}");
    }
}

/// The one line that is indented and begins so.
fn line<'a>(text: &'a str, begin: &str) -> &'a str {
    let mut lines = text.lines().filter_map(|it| it.strip_prefix("    ")).filter(|it| it.starts_with(begin));
    let found = lines.next().expect("the line is there");
    assert_eq!(lines.next(), None);
    found
}

#[test]
fn the_state() {
    let answer = hex(line(REQUESTS, "00000016 08 00000002"));
    let state = State { generation: 2, entries: 1, used: 1, dependencies: 0, is_sealed: false, stamp: 6 };
    assert_eq!(question::state(&answer[4..]), Some(state));
    for cut in 4..answer.len() {
        assert_eq!(question::state(&answer[4..cut]), None);
    }
}

#[test]
fn what_there_is_to_report() {
    let frame = hex(line(FRAMES, "4550 01 01 00 01 0000 00000001 0000000000000001 00 0001"));
    let mut answer = Vec::new();
    for part in line(REQUESTS, "0000004f 09").split_whitespace() {
        answer.extend(if part == "FRAME" { frame.clone() } else { hex(part) });
    }
    let report = Report::read(&answer[4..]).unwrap();
    assert_eq!((report.entries, report.is_sealed), (1, false));
    let frames: Vec<_> = report.frames().map(|it| (it.to, it.bytes)).collect();
    assert_eq!(frames, [(1, &frame[..])]);
    assert_eq!((report.receipts().count(), report.committed().len()), (0, 0));
    let leading = Leading { phase: Phase::Proposing, answers: 0 };
    let open =
        OpenInstance { instance: Instance { replica: 0, number: 1 }, since: Some(1), led: Some(leading), spared: None };
    assert_eq!(report.open().collect::<Vec<_>>(), [open]);
    for cut in 4..answer.len() {
        assert_eq!(Report::read(&answer[4..cut]), None);
    }
    answer.push(0);
    assert_eq!(Report::read(&answer[4..]), None);

    let nothing = hex(line(REQUESTS, "00000017 09"));
    let report = Report::read(&nothing[4..]).unwrap();
    assert_eq!((report.entries, report.frames().count(), report.open().count()), (1, 0, 0));
}
