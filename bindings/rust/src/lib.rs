//! A register of lower and upper bounds on the distances of a chart's sections, over the static library of `crates/settle_c`, whose contracts are proved.
//!
//! A bound gets in only where a showing proves it: a pairing for an upper bound, potentials for a lower one.
//!
//! ```
//! use settle::{Register, Side, Verdict};
//!
//! // The chart of docs/BINDINGS.md: four sections, and section 1 in a band of its own.
//! let chart = [
//!     0, 1, 0, 4, 0, 1, 0, 2, 0, 4, 0, 16, 0, 20, 0, 52, 0, 1, 0, 0, 0, 3, 0, 1, 0, 0,
//!     0, 0, 0, 0, 0, 4, 0, 0, 0, 0, 0, 0, 0, 2, 0, 2, 0, 0, 0, 0, 0, 0, 0, 0, 0, 4,
//! ];
//! let mut register = Register::new(&chart, 30)?;
//! register.open(Side::Upper)?;
//! register.claim(0, 3, 6)?;
//! register.close()?;
//! register.show(0, 3, &[0, 3, 3, 1, 3, 1])?;
//! register.enter()?;
//! let entries = register.ask(0, 3)?;
//! assert_eq!((entries.lower, entries.upper, entries.verdict), (0, 6, Verdict::Open));
//! # Ok::<(), Box<dyn std::error::Error>>(())
//! ```

mod ffi;
mod outcome;
mod refusal;

pub use refusal::{ChartRefusal, Fault, NotMade, Refusal};

use ffi::Handle;
use std::cell::UnsafeCell;
use std::fmt;
use std::ptr;

/// The side of a bound: an upper one is shown by a pairing, a lower one by potentials.
#[derive(Clone, Copy, PartialEq, Eq, Debug)]
pub enum Side {
    Upper,
    Lower,
}

impl Side {
    fn is_lower(self) -> bool {
        self == Side::Lower
    }
}

/// One of the two sittings of a test that is sat twice.
#[derive(Clone, Copy, PartialEq, Eq, Debug)]
pub enum Sitting {
    First,
    Second,
}

/// What the two entries of a pair say.
#[derive(Clone, Copy, PartialEq, Eq, Debug)]
pub enum Verdict {
    /// The sections are apart: their distance is the top.
    Apart,
    /// The two entries are equal: they are the distance.
    Settled,
    /// The lower entry is below the upper one.
    Open,
}

/// The bounds of a pair, over the register's top.
#[derive(Clone, Copy, PartialEq, Eq, Debug)]
pub struct Entries {
    pub lower: u32,
    pub upper: u32,
    pub verdict: Verdict,
}

/// A register over a chart and a top, or over the two charts of a test that is sat twice.
///
/// Its calls are those of `docs/REGISTER.md`. A call that is refused changes nothing.
///
/// A register stays on its thread, and is not shared with another:
///
/// ```compile_fail,E0277
/// fn send<T: Send>() {}
/// send::<settle::Register>();
/// ```
///
/// ```compile_fail,E0277
/// fn share<T: Sync>() {}
/// share::<settle::Register>();
/// ```
pub struct Register {
    // Asking and weighing take the handle as if they changed it, and do not change the register. So they go through
    // a cell; the pointer in it keeps a register on one thread.
    handle: UnsafeCell<Handle>,
}

impl Register {
    /// A register with no claims, over the chart in a file with these bytes.
    pub fn new(chart: &[u8], top: u32) -> Result<Register, NotMade> {
        let mut register = Register::none();
        // SAFETY: the handle has no register, and the pointer and the length are those of one slice.
        let made = unsafe { ffi::settle_new(register.handle.get_mut(), chart.as_ptr(), chart.len(), top) };
        outcome::made(made).map(|()| register)
    }

    /// The same for a test that is sat twice, under the charts in two files.
    pub fn new_twice(first: &[u8], second: &[u8], top: u32) -> Result<Register, NotMade> {
        let mut register = Register::none();
        // SAFETY: as in `new`.
        let made = unsafe {
            ffi::settle_new_twice(register.handle.get_mut(), first.as_ptr(), first.len(), second.as_ptr(), second.len(), top)
        };
        outcome::made_twice(made).map(|()| register)
    }

    /// A handle of no register, which no caller sees.
    fn none() -> Register {
        Register { handle: UnsafeCell::new(Handle { at: ptr::null_mut() }) }
    }

    /// How many sections the chart has.
    pub fn sections(&self) -> usize {
        // SAFETY: the handle is this register's. No other call has it, since `Register` is not `Sync`.
        unsafe { ffi::settle_sections(self.handle.get()) }
    }

    /// Opens a draft of claims on a side.
    pub fn open(&mut self, side: Side) -> Result<u32, Refusal> {
        // SAFETY: the handle is this register's.
        outcome::count(unsafe { ffi::settle_open(self.handle.get_mut(), side.is_lower()) })
    }

    /// Claims that the value bounds the distance of a pair on the draft's side. Answers how many claims there are.
    pub fn claim(&mut self, s: usize, t: usize, value: u32) -> Result<u32, Refusal> {
        // SAFETY: the handle is this register's.
        outcome::count(unsafe { ffi::settle_claim(self.handle.get_mut(), s, t, value) })
    }

    /// The draft takes no more claims, and then showings. Answers how many claims there are.
    pub fn close(&mut self) -> Result<u32, Refusal> {
        // SAFETY: the handle is this register's.
        outcome::count(unsafe { ffi::settle_close(self.handle.get_mut()) })
    }

    /// Shows the claim of a pair by these words. Answers how many claims are not shown yet.
    pub fn show(&mut self, s: usize, t: usize, words: &[i32]) -> Result<u32, Refusal> {
        // SAFETY: the handle is this register's, and the pointer and the length are those of one slice.
        outcome::count(unsafe { ffi::settle_show(self.handle.get_mut(), s, t, words.as_ptr(), words.len()) })
    }

    /// Writes the draft's claims into the table of its side. Answers how many there were.
    pub fn enter(&mut self) -> Result<u32, Refusal> {
        // SAFETY: the handle is this register's.
        outcome::count(unsafe { ffi::settle_enter(self.handle.get_mut()) })
    }

    /// Forgets the draft. Answers how many claims it had.
    pub fn abandon(&mut self) -> Result<u32, Refusal> {
        // SAFETY: the handle is this register's.
        outcome::count(unsafe { ffi::settle_abandon(self.handle.get_mut()) })
    }

    /// The entries of a pair.
    pub fn ask(&self, s: usize, t: usize) -> Result<Entries, Refusal> {
        // SAFETY: as in `sections`.
        outcome::entries(unsafe { ffi::settle_ask(self.handle.get(), s, t) })
    }

    /// Weighs a showing in the table of a side as it is: the least claim that a pairing shows, or the greatest that
    /// potentials show.
    pub fn weigh(&self, side: Side, s: usize, t: usize, words: &[i32]) -> Result<u32, Fault> {
        // SAFETY: as in `sections`, and the pointer and the length are those of one slice.
        outcome::claim(unsafe { ffi::settle_weigh(self.handle.get(), side.is_lower(), s, t, words.as_ptr(), words.len()) })
    }
}

impl Drop for Register {
    fn drop(&mut self) {
        // SAFETY: the handle is this register's, or has none.
        unsafe { ffi::settle_free(self.handle.get_mut()) }
    }
}

impl fmt::Debug for Register {
    fn fmt(&self, f: &mut fmt::Formatter<'_>) -> fmt::Result {
        f.debug_struct("Register").field("sections", &self.sections()).finish_non_exhaustive()
    }
}
