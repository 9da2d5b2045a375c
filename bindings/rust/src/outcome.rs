//! What the library's numbers say.

use crate::ffi::Outcome;
use crate::refusal::{ChartRefusal, Fault, NotMade, Refusal};
use crate::{Entries, Sitting, Verdict};

/// The numbers of an outcome, if it is accepted, or else those of its refusal.
fn numbers(outcome: &Outcome) -> Result<&[u64], &[u64]> {
    let numbers = &outcome.numbers[..outcome.count as usize];
    if outcome.accepted {
        Ok(numbers)
    } else {
        Err(numbers)
    }
}

/// A number that the library promises to be of this type.
fn of<T: TryFrom<u64>>(number: u64) -> T {
    T::try_from(number).unwrap_or_else(|_| unreachable!("the library answers {number}"))
}

fn sitting(number: u64) -> Sitting {
    match number {
        0 => Sitting::First,
        1 => Sitting::Second,
        _ => unreachable!("the library answers a sitting {number}"),
    }
}

fn verdict(number: u64) -> Verdict {
    match number {
        0 => Verdict::Apart,
        1 => Verdict::Settled,
        2 => Verdict::Open,
        _ => unreachable!("the library answers a verdict {number}"),
    }
}

fn fault(numbers: &[u64]) -> Fault {
    match *numbers {
        [number, place] => Fault { sitting: None, number: of(number), place: of(place) },
        [of_sitting, number, place] => Fault { sitting: Some(sitting(of_sitting)), number: of(number), place: of(place) },
        _ => unreachable!("the library answers a fault {numbers:?}"),
    }
}

fn refusal(numbers: &[u64]) -> Refusal {
    match *numbers {
        [20] => Refusal::NotResting,
        [30] => Refusal::NotClaiming,
        [31] => Refusal::ClaimOutside,
        [32] => Refusal::ClaimApart,
        [33] => Refusal::ClaimedTwice,
        [34] => Refusal::ClaimValue,
        [40] => Refusal::CloseNotClaiming,
        [41] => Refusal::NoClaims,
        [50] => Refusal::NotShowing,
        [51] => Refusal::ShowOutside,
        [52] => Refusal::NoClaim,
        [53] => Refusal::ShownAlready,
        [54, ref carried @ ..] => Refusal::Fault(fault(carried)),
        [55, bound] => Refusal::Bound(of(bound)),
        [60] => Refusal::EnterNotShowing,
        [61, s, t] => Refusal::Unshown(of(s), of(t)),
        [70] => Refusal::Resting,
        [80] => Refusal::AskOutside,
        _ => unreachable!("the library refuses with {numbers:?}"),
    }
}

/// A call that answers with a count.
pub fn count(outcome: Outcome) -> Result<u32, Refusal> {
    match numbers(&outcome) {
        Ok(&[count]) => Ok(of(count)),
        Ok(answer) => unreachable!("the library answers {answer:?}"),
        Err(numbers) => Err(refusal(numbers)),
    }
}

pub fn entries(outcome: Outcome) -> Result<Entries, Refusal> {
    match numbers(&outcome) {
        Ok(&[lower, upper, said]) => Ok(Entries { lower: of(lower), upper: of(upper), verdict: verdict(said) }),
        Ok(answer) => unreachable!("the library answers {answer:?}"),
        Err(numbers) => Err(refusal(numbers)),
    }
}

pub fn claim(outcome: Outcome) -> Result<u32, Fault> {
    match numbers(&outcome) {
        Ok(&[claim]) => Ok(of(claim)),
        Ok(answer) => unreachable!("the library answers {answer:?}"),
        Err(numbers) => Err(fault(numbers)),
    }
}

/// The making of a register over one chart: the library tells sitting 0 of it, and there is none.
pub fn made(outcome: Outcome) -> Result<(), NotMade> {
    made_twice(outcome).map_err(|reason| match reason {
        NotMade::Chart(refusal) => NotMade::Chart(ChartRefusal { sitting: None, ..refusal }),
        reason => reason,
    })
}

/// The making of a register of a test that is sat twice.
pub fn made_twice(outcome: Outcome) -> Result<(), NotMade> {
    match numbers(&outcome) {
        Ok(_) => Ok(()),
        Err(&[number, place, of_sitting]) => {
            Err(NotMade::Chart(ChartRefusal { sitting: Some(sitting(of_sitting)), number: of(number), place: of(place) }))
        }
        Err(&[11]) => Err(NotMade::Top),
        Err(&[12]) => Err(NotMade::Misfit),
        Err(&[90]) => Err(NotMade::NoMemory),
        Err(numbers) => unreachable!("the library refuses with {numbers:?}"),
    }
}
