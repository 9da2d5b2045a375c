//! The worked cases: a weighted chart over top 30, the same chart sat twice, and a choice chart over top 8.

use model::line::Line;
use model::machine::Machine;
use model::solver::certificate;
use model::table::Side;

const WEIGHTED: &str = "0001000400010002000400100014003400010000\
                        0003000100000000000000040000000000000002000200000000000000000004";
const CHOICE: &str = "0002000300010002000000100013001f000100000000030000000200000004";

/// Plays lines, each of which must have its answer.
fn play(trials: &[(&str, &str)]) -> Machine {
    let mut machine = Machine::default();
    for (line, answer) in trials {
        let parsed: Line = line.parse().expect("the line is well-formed");
        assert_eq!(machine.play(&parsed).to_string(), *answer, "{line}");
    }
    machine
}

/// Plays lines on a register of the weighted chart.
fn weighted(trials: &[(&str, &str)]) {
    let register = format!("register 30 x {WEIGHTED}");
    play(&[&[(register.as_str(), "register = 4")], trials].concat());
}

#[test]
fn a_fresh_register_answers_the_starting_entries() {
    weighted(&[("ask 0 3", "ask 0 3 = 0 30 open"), ("ask 0 1", "ask 0 1 = 30 30 apart"), ("ask 4 0", "ask 4 0 refused 80")]);
}

#[test]
fn a_pairing_shows_6_and_no_less() {
    weighted(&[
        ("open upper", "open upper = 0"),
        ("claim 0 3 6", "claim 0 3 6 = 1"),
        ("close", "close = 1"),
        ("show 0 3 0 3 3 1 3 1", "show 0 3 = 0"),
        ("abandon", "abandon = 1"),
        ("open upper", "open upper = 0"),
        ("claim 0 3 5", "claim 0 3 5 = 1"),
        ("close", "close = 1"),
        ("show 0 3 0 3 3 1 3 1", "show 0 3 refused 55 6"),
    ]);
}

#[test]
fn claims_lie_over_the_table() {
    weighted(&[
        ("open upper", "open upper = 0"),
        ("claim 0 2 5", "claim 0 2 5 = 1"),
        ("close", "close = 1"),
        ("show 0 2 0 1 1 0 2 2 1 1 1", "show 0 2 refused 55 9"),
        ("abandon", "abandon = 1"),
        ("open upper", "open upper = 0"),
        ("claim 0 2 5", "claim 0 2 5 = 1"),
        ("claim 1 1 0", "claim 1 1 0 = 2"),
        ("close", "close = 2"),
        ("show 0 2 0 1 1 0 2 2 1 1 1", "show 0 2 = 1"),
        ("enter", "enter refused 61 1 1"),
        ("weigh upper 0 2 0 1 1 0 2 2 1 1 1", "weigh upper 0 2 = 15"),
    ]);
}

#[test]
fn potentials_show_6_and_no_more() {
    weighted(&[
        ("open lower", "open lower = 0"),
        ("claim 0 3 6", "claim 0 3 6 = 1"),
        ("close", "close = 1"),
        ("show 0 3 7 30 0 0 0 0 0 0", "show 0 3 refused 54 113 3"),
        ("show 0 3 6 30 0 0 0 0 0 0", "show 0 3 = 0"),
        ("enter", "enter = 1"),
        ("ask 0 3", "ask 0 3 = 6 30 open"),
        ("open lower", "open lower = 0"),
        ("claim 0 3 7", "claim 0 3 7 = 1"),
        ("claim 0 2 5", "claim 0 2 5 = 2"),
        ("close", "close = 2"),
        ("show 0 3 7 30 0 0 0 0 0 0", "show 0 3 refused 55 6"),
        ("show 0 2 5 -25 0 0 0 25 0 0", "show 0 2 = 1"),
    ]);
}

#[test]
fn a_pairing_that_is_too_small_has_a_fault() {
    weighted(&[
        ("weigh upper 0 3 0 3 4", "weigh upper 0 3 fault 104 0"),
        ("weigh upper 0 3", "weigh upper 0 3 fault 104 0"),
        ("weigh upper 0 1", "weigh upper 0 1 fault 100 0"),
        ("weigh upper 0 3 0 3 3 1", "weigh upper 0 3 fault 101 4"),
        ("weigh upper 0 3 0 4 5", "weigh upper 0 3 fault 102 1"),
        ("weigh upper 0 3 0 3 5 4", "weigh upper 0 3 fault 101 4"),
        ("weigh upper 0 3 0 3 5", "weigh upper 0 3 fault 103 2"),
        ("weigh upper 0 3 0 3 3 1 2 1", "weigh upper 0 3 fault 105 2"),
    ]);
}

#[test]
fn the_chart_twice_takes_the_pairing_twice() {
    let register = format!("register 30 (xx) {WEIGHTED} {WEIGHTED}");
    play(&[
        (&register, "register = 4"),
        ("open upper", "open upper = 0"),
        ("claim 0 3 6", "claim 0 3 6 = 1"),
        ("close", "close = 1"),
        ("show 0 3 6 0 3 3 1 3 1 0 3 4", "show 0 3 refused 54 1 104 0"),
        ("show 0 3 6 0 3 3 1 3 1 0 3 3 1 3 1", "show 0 3 = 0"),
        ("weigh upper 0 3", "weigh upper 0 3 fault 141 0"),
        ("weigh lower 0 3 2", "weigh lower 0 3 fault 142 0"),
    ]);
}

#[test]
fn a_choice_pairing_shows_4_and_no_less() {
    let register = format!("register 8 x {CHOICE}");
    play(&[
        (&register, "register = 3"),
        ("open upper", "open upper = 0"),
        ("claim 0 2 3", "claim 0 2 3 = 1"),
        ("close", "close = 1"),
        ("show 0 2 0 2 1 2", "show 0 2 refused 55 4"),
        ("weigh lower 0 2 0 1 8", "weigh lower 0 2 = 4"),
        ("weigh lower 0 2 0 0 8", "weigh lower 0 2 fault 135 2"),
    ]);
}

#[test]
fn charts_in_hand_are_taken_and_registers_refused() {
    play(&[
        (&format!("read weighted {WEIGHTED}"), "read weighted = 4"),
        ("read weighted -", "read weighted refused 1 0"),
        ("tell weighted", "tell weighted = 4 1 2 3072 0100101101000100"),
        ("register 0 weighted", "register refused 11"),
        ("register 30 weighted", "register = 4"),
        ("tell weighted", "tell weighted = 1 1 2 3072 0"),
        ("tell choice", "tell choice = 1 1 2 2048 0"),
        (&format!("register 30 (xx) {WEIGHTED} 00"), "register refused 1 1 1"),
        (&format!("register 30 (xx) {WEIGHTED} {CHOICE}"), "register refused 12"),
        ("ask 3 3", "ask 3 3 = 0 30 open"),
    ]);
}

#[test]
fn the_solver_finds_the_worked_distances() {
    let machine = play(&[(&format!("register 2520 x {WEIGHTED}"), "register = 4")]);
    let register = machine.register();
    let certificate = certificate(register.chart(), register.top()).expect("the distances are whole");
    assert_eq!(certificate.table.entry(0, 3), 504);
    assert_eq!(certificate.table.entry(0, 0), 0);
    for shown in certificate.upper {
        let (s, t) = (shown.s as u32, shown.t as u32);
        assert_eq!(register.chart().weigh(Side::Upper, &certificate.table, s, t, &shown.words), Ok(shown.claim));
    }
}
