//! The lines that a seed gives.

use model::generate::trials;
use model::line::Line;
use model::machine::Machine;
use model::tally::Tally;

#[test]
fn lines_are_read_as_they_are_written() {
    let mut machine = Machine::default();
    for trial in trials(1, 5_000) {
        let line: Line = trial.line.to_string().parse().expect("the line is well-formed");
        assert_eq!(line, trial.line);
        assert_eq!(machine.play(&line), trial.answer);
    }
}

#[test]
fn a_seed_always_gives_the_same_lines() {
    let lines = || trials(7, 1_000).into_iter().map(|trial| trial.line);
    assert!(lines().eq(lines()));
}

#[test]
fn every_refusal_and_fault_comes_up() {
    let tally = Tally::of(&trials(2, 60_000));
    let files = (1..=7).chain([11, 12]);
    let calls = (30..=34).chain(50..=55).chain([20, 40, 41, 60, 61, 70, 80]);
    let faults = (100..=105).chain(111..=113).chain(121..=124).chain(131..=135).chain([141, 142]);
    for number in files.chain(calls).chain(faults) {
        assert!(tally.times(number) >= 10, "{number} comes up {} times", tally.times(number));
    }
    let (shows, accepted) = tally.shows();
    assert!(3 * accepted >= shows, "{accepted} of {shows} shows accepted");
}
