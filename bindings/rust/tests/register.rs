//! Registers made and played through the package.

use settle::{ChartRefusal, Fault, NotMade, Refusal, Register, Side, Sitting, Verdict};

const WORKED: &[u8] = include_bytes!("../../../examples/worked.chart");
const CHOICE: &[u8] = include_bytes!("../../../examples/choice.chart");

/// The potentials that show 6 of 30 for sections 0 and 3 of the worked chart.
const POTENTIALS: [i32; 8] = [6, 30, 0, 0, 0, 0, 0, 0];

/// A copy of a file with other bytes from a place on.
fn with(file: &[u8], at: usize, bytes: &[u8]) -> Vec<u8> {
    let mut file = file.to_vec();
    file[at..at + bytes.len()].copy_from_slice(bytes);
    file
}

fn asked(register: &Register, s: usize, t: usize) -> (u32, u32, Verdict) {
    let entries = register.ask(s, t).unwrap();
    (entries.lower, entries.upper, entries.verdict)
}

fn fault(number: u16, place: usize) -> Fault {
    Fault { sitting: None, number, place }
}

#[test]
fn the_worked_example() {
    let mut register = Register::new(WORKED, 30).unwrap();
    assert_eq!(register.sections(), 4);
    assert_eq!(register.open(Side::Upper), Ok(0));
    assert_eq!(register.claim(0, 3, 6), Ok(1));
    assert_eq!(register.close(), Ok(1));
    assert_eq!(register.show(0, 3, &[0, 3, 3, 1, 3, 1]), Ok(0));
    assert_eq!(register.enter(), Ok(1));
    assert_eq!(register.open(Side::Lower), Ok(0));
    assert_eq!(register.claim(0, 3, 6), Ok(1));
    assert_eq!(register.close(), Ok(1));
    let above = register.show(0, 3, &[7, 30, 0, 0, 0, 0, 0, 0]);
    assert_eq!(above, Err(Refusal::Fault(fault(113, 3))));
    assert_eq!(above.unwrap_err().to_string(), "54 113 3");
    assert_eq!(register.show(0, 3, &POTENTIALS), Ok(0));
    assert_eq!(register.enter(), Ok(1));
    assert_eq!(asked(&register, 0, 3), (6, 6, Verdict::Settled));
    assert_eq!(asked(&register, 0, 1), (30, 30, Verdict::Apart));
    assert_eq!(asked(&register, 3, 0), (0, 30, Verdict::Open));
}

#[test]
fn a_choice_chart() {
    let mut register = Register::new(CHOICE, 8).unwrap();
    register.open(Side::Upper).unwrap();
    register.claim(0, 2, 3).unwrap();
    register.close().unwrap();
    assert_eq!(register.show(0, 2, &[0, 2, 1, 2]), Err(Refusal::Bound(4)));
    assert_eq!(register.abandon(), Ok(1));
    for (side, words) in [(Side::Upper, &[0, 2, 1, 2][..]), (Side::Lower, &[0, 1, 8])] {
        register.open(side).unwrap();
        register.claim(0, 2, 4).unwrap();
        register.close().unwrap();
        assert_eq!(register.show(0, 2, words), Ok(0));
        assert_eq!(register.enter(), Ok(1));
    }
    assert_eq!(asked(&register, 0, 2), (4, 4, Verdict::Settled));
}

#[test]
fn weighing_changes_nothing() {
    let register = Register::new(WORKED, 30).unwrap();
    assert_eq!(register.weigh(Side::Upper, 0, 3, &[0, 3, 3, 1, 3, 1]), Ok(15));
    assert_eq!(register.weigh(Side::Lower, 0, 3, &POTENTIALS), Err(fault(113, 3)));
    assert_eq!(register.weigh(Side::Upper, 0, 3, &[]), Err(fault(104, 0)));
    assert_eq!(register.weigh(Side::Upper, 0, 1, &[]), Err(fault(100, 0)));
    assert_eq!(register.weigh(Side::Lower, 0, usize::MAX, &[]), Err(fault(100, 0)));
    assert_eq!(asked(&register, 0, 3), (0, 30, Verdict::Open));
}

#[test]
fn a_test_that_is_sat_twice() {
    let of_sitting = |sitting, number, place| Fault { sitting: Some(sitting), number, place };
    let register = Register::new_twice(WORKED, WORKED, 30).unwrap();
    let upper = |words: &[i32]| register.weigh(Side::Upper, 0, 3, words);
    assert_eq!(upper(&[6, 0, 3, 3, 1, 3, 1, 0, 3, 3, 1, 3, 1]), Ok(15));
    assert_eq!(upper(&[0, 0, 3, 3, 1, 3, 1]), Err(of_sitting(Sitting::First, 104, 0)));
    assert_eq!(upper(&[6, 0, 3, 3, 1, 3, 1, 0, 3, 9]), Err(of_sitting(Sitting::Second, 103, 2)));
    assert_eq!(upper(&[7, 0, 3, 3, 1, 3, 1]), Err(fault(141, 0)));
    assert_eq!(register.weigh(Side::Lower, 0, 3, &[2]), Err(fault(142, 0)));

    let mut register = register;
    register.open(Side::Lower).unwrap();
    register.claim(0, 3, 3).unwrap();
    register.close().unwrap();
    let range = register.show(0, 3, &[1, 0, 0, 0, 31, 0, 0, 0, 0]);
    assert_eq!(range, Err(Refusal::Fault(of_sitting(Sitting::Second, 112, 3))));
    assert_eq!(range.unwrap_err().to_string(), "54 1 112 3");
    assert_eq!(register.show(0, 3, &[1, 0, 30, 0, 0, 0, 0, 0, 0]), Ok(0));
    assert_eq!(register.enter(), Ok(1));
    assert_eq!(asked(&register, 0, 3), (3, 30, Verdict::Open));
}

#[test]
fn charts_that_are_refused() {
    let refused = |file: &[u8]| match Register::new(file, 30) {
        Err(NotMade::Chart(ChartRefusal { sitting: None, number, place })) => (number, place),
        other => panic!("{other:?}"),
    };
    assert_eq!(refused(&[]), (1, 0));
    assert_eq!(refused(&WORKED[..15]), (1, 15));
    assert_eq!(refused(&WORKED[..51]), (1, 14));
    assert_eq!(refused(&with(WORKED, 0, &[0, 3])), (2, 0));
    assert_eq!(refused(&with(WORKED, 2, &[0, 33])), (3, 2));
    assert_eq!(refused(&with(WORKED, 4, &[0, 2])), (4, 4));
    assert_eq!(refused(&with(WORKED, 8, &[0, 0])), (5, 8));
    assert_eq!(refused(&with(CHOICE, 8, &[0, 1])), (5, 8));
    assert_eq!(refused(&with(WORKED, 10, &[0, 15])), (6, 10));
    assert_eq!(refused(&with(WORKED, 12, &[0, 19])), (6, 12));
    assert_eq!(refused(&with(WORKED, 29, &[1])), (7, 1));
    assert_eq!(refused(&with(CHOICE, 30, &[0])), (7, 2));
    assert_eq!(Register::new(&[], 30).unwrap_err().to_string(), "1 0");
}

#[test]
fn two_charts_that_are_refused() {
    let second = Register::new_twice(WORKED, &with(WORKED, 2, &[0, 0]), 30).unwrap_err();
    assert_eq!(second, NotMade::Chart(ChartRefusal { sitting: Some(Sitting::Second), number: 3, place: 2 }));
    assert_eq!(second.to_string(), "1 3 2");
    let first = Register::new_twice(&[], &[], 0).unwrap_err();
    assert_eq!(first, NotMade::Chart(ChartRefusal { sitting: Some(Sitting::First), number: 1, place: 0 }));
    assert_eq!(first.to_string(), "0 1 0");
    assert_eq!(Register::new_twice(WORKED, CHOICE, 0).unwrap_err(), NotMade::Top);
    assert_eq!(Register::new_twice(WORKED, CHOICE, 30).unwrap_err(), NotMade::Misfit);
    assert!(Register::new_twice(CHOICE, CHOICE, 30).is_ok());
}

#[test]
fn tops_that_are_refused() {
    for top in [0, 1_000_000_001, u32::MAX] {
        assert_eq!(Register::new(WORKED, top).unwrap_err(), NotMade::Top);
    }
    assert!(Register::new(WORKED, 1).is_ok());
    assert!(Register::new(WORKED, 1_000_000_000).is_ok());
}

#[test]
fn every_refusal_of_a_call() {
    let mut register = Register::new(WORKED, 30).unwrap();
    let refused = |outcome: Result<u32, Refusal>| outcome.unwrap_err().to_string();
    assert_eq!(refused(register.claim(0, 3, 6)), "30");
    assert_eq!(refused(register.close()), "40");
    assert_eq!(refused(register.show(0, 3, &[])), "50");
    assert_eq!(refused(register.enter()), "60");
    assert_eq!(refused(register.abandon()), "70");
    assert_eq!(register.ask(4, 0), Err(Refusal::AskOutside));
    assert_eq!(register.ask(0, usize::MAX).unwrap_err().number(), 80);

    register.open(Side::Upper).unwrap();
    assert_eq!(refused(register.open(Side::Lower)), "20");
    assert_eq!(refused(register.close()), "41");
    assert_eq!(refused(register.claim(usize::MAX, 0, 6)), "31");
    assert_eq!(refused(register.claim(0, 1, 6)), "32");
    assert_eq!(refused(register.claim(0, 3, 31)), "34");
    assert_eq!(register.claim(0, 3, 6), Ok(1));
    assert_eq!(refused(register.claim(0, 3, 6)), "33");
    assert_eq!(register.claim(2, 3, 30), Ok(2));
    assert_eq!(register.close(), Ok(2));

    assert_eq!(refused(register.show(0, 4, &[])), "51");
    assert_eq!(refused(register.show(0, 2, &[])), "52");
    assert_eq!(refused(register.show(0, 3, &[0, 0])), "54 101 2");
    assert_eq!(refused(register.show(2, 3, &[0, 3, 3])), "54 104 0");
    assert_eq!(refused(register.enter()), "61 0 3");
    assert_eq!(register.show(0, 3, &[0, 3, 3, 1, 3, 1]), Ok(1));
    assert_eq!(refused(register.show(0, 3, &[])), "53");
    assert_eq!(refused(register.enter()), "61 2 3");
    assert_eq!(register.abandon(), Ok(2));
}
