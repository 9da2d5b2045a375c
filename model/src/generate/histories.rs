//! Calls and weighings on the register at hand, as its state has it, and whole certificates.

use super::Writer;
use super::showings::{self, Question};
use crate::line::Line;
use crate::register::{Phase, Register, Verdict};
use crate::solver::{Certificate, Shown};
use crate::table::Side;

/// A question about a judged pair in the side's table as it is, or with the draft's claims laid over it while there is a draft.
fn question(register: &Register, side: Option<Side>, (s, t): (usize, usize)) -> Question<'_> {
    let (side, table) = match (side, register.phase()) {
        (Some(side), _) => (side, register.table(side)),
        (None, Phase::Resting) => (Side::Upper, register.table(Side::Upper)),
        (None, Phase::Claiming(draft)) => (draft.side, &draft.laid),
        (None, Phase::Showing(showing)) => (showing.draft.side, &showing.draft.laid),
    };
    Question { chart: register.chart(), side, table, s, t }
}

/// What the next line is to do.
enum Next {
    Open,
    Claim(usize, usize),
    Close,
    Show(usize, usize),
    Enter,
    Abandon,
}

impl Writer {
    /// That many lines, more or less.
    pub(super) fn history(&mut self, steps: usize) {
        for _ in 0..steps {
            match self.random.below(100) {
                0..10 => self.stray_call(),
                10..26 => self.weighing(),
                26..29 => self.asking(),
                _ => self.step(),
            }
        }
    }

    /// The line that brings the draft on.
    fn step(&mut self) {
        match self.next() {
            Next::Open => {
                let side = self.random_side();
                self.open(side);
            }
            Next::Claim(s, t) => self.claim(s, t),
            Next::Close => {
                self.put(Line::Close);
            }
            Next::Show(s, t) => self.show(s, t),
            Next::Enter => {
                self.put(Line::Enter);
            }
            Next::Abandon => {
                self.put(Line::Abandon);
            }
        }
    }

    fn next(&mut self) -> Next {
        let told = self.machine.register().chart().told();
        match self.machine.register().phase() {
            Phase::Resting => Next::Open,
            Phase::Claiming(draft) => {
                let free: Vec<_> = told.judged_pairs().filter(|&(s, t)| !draft.has_claim(s, t)).collect();
                if draft.count() >= self.goal || free.is_empty() {
                    return Next::Close;
                }
                let &(s, t) = self.random.pick(&free);
                Next::Claim(s, t)
            }
            Phase::Showing(showing) => {
                let waiting: Vec<_> = told.judged_pairs().filter(|&(s, t)| showing.waits(s, t)).collect();
                if waiting.is_empty() {
                    return Next::Enter;
                }
                if self.patience == 0 {
                    return if self.random.percent(40) { Next::Enter } else { Next::Abandon };
                }
                let &(s, t) = self.random.pick(&waiting);
                Next::Show(s, t)
            }
        }
    }

    fn open(&mut self, side: Side) {
        let judged = self.machine.register().chart().told().judged_pairs().count();
        self.goal = match self.random.below(20) {
            0 => judged.min(150),
            1..4 => 1,
            _ => 1 + self.random.below(6),
        };
        self.patience = self.goal + self.goal / 3 + 2;
        self.put(Line::Open(side));
    }

    /// Claims a value for a judged pair: mostly just what some showing shows.
    fn claim(&mut self, s: usize, t: usize) {
        let register = self.machine.register();
        let question = question(register, None, (s, t));
        let words =
            if self.random.percent(60) { showings::best(&question) } else { showings::valid(&mut self.random, &question) };
        let bound = question.claim(&words).expect("the showing is valid");
        let (side, entry) = (question.side, register.table(question.side).entry(s, t));
        let value = self.claimed_value(side, entry, bound);
        self.planned.insert((s, t), words);
        self.put(Line::Claim(s as u32, t as u32, value));
    }

    /// A value to claim where a showing shows the bound: mostly the bound or the entry, whichever is tighter, and sometimes one at an
    /// edge or any.
    fn claimed_value(&mut self, side: Side, entry: u32, bound: u32) -> u32 {
        let (least, greatest, top) = (bound.min(entry), bound.max(entry), self.machine.register().top().get());
        let (tighter, tighter_still, looser) = match side {
            Side::Upper => (least, bound.saturating_sub(1), entry.wrapping_add(1)),
            Side::Lower => (greatest, bound.wrapping_add(1), entry.wrapping_sub(1)),
        };
        match self.random.below(100) {
            0..70 => tighter,
            70..82 => self.random.between(i64::from(least), i64::from(greatest)) as u32,
            82..86 => tighter_still,
            86..91 => entry,
            91..95 => looser,
            95 => *self.random.pick(&[0, 1, top, top + 1, top - 1]),
            96 => u32::MAX,
            _ => self.random.between(0, i64::from(top)) as u32,
        }
    }

    /// Tries to show the claim of a pair that waits for it.
    fn show(&mut self, s: usize, t: usize) {
        let question = question(self.machine.register(), None, (s, t));
        let words = match (self.random.below(100), self.planned.get(&(s, t))) {
            (0..65, Some(words)) => words.clone(),
            (0..90, _) => showings::best(&question),
            _ => showings::valid(&mut self.random, &question),
        };
        let words = match self.random.below(1000) {
            0..200 => showings::damaged(&mut self.random, &question, words),
            200..205 => showings::stretched(&mut self.random, &question, words),
            _ => words,
        };
        self.patience -= 1;
        self.put(Line::Show(s as u32, t as u32, words));
    }

    /// A weighing in the side's table as it is.
    fn weighing(&mut self) {
        let side = self.random_side();
        let (s, t) = self.mostly_judged_pair();
        let words = self.words_for(Some(side), s, t);
        self.put(Line::Weigh(side, s, t, words));
    }

    /// Words for any pair: a showing or a damaged one if it is judged, and else a few words.
    fn words_for(&mut self, side: Option<Side>, s: u32, t: u32) -> Vec<i32> {
        let register = self.machine.register();
        let Ok(pair) = register.chart().told().judged(s, t) else {
            let count = self.random.below(7);
            return (0..count).map(|_| self.random.between(-1, 3) as i32).collect();
        };
        let question = question(register, side, pair);
        let words =
            if self.random.percent(40) { showings::best(&question) } else { showings::valid(&mut self.random, &question) };
        match self.random.below(1000) {
            0..520 => showings::damaged(&mut self.random, &question, words),
            520..535 => showings::stretched(&mut self.random, &question, words),
            _ => words,
        }
    }

    fn asking(&mut self) {
        let (s, t) = self.random_pair();
        self.put(Line::Ask(s, t));
    }

    /// A call that the state may not be ready for, or one with any numbers.
    fn stray_call(&mut self) {
        let (s, t) = self.random_pair();
        let line = match self.random.below(20) {
            0..3 => Line::Open(self.random_side()),
            3..8 => {
                let top = self.machine.register().top().get();
                let value = *self.random.pick(&[0, 1, top / 2, top, top + 1, u32::MAX]);
                Line::Claim(s, t, value)
            }
            8..10 => Line::Close,
            10..15 => Line::Show(s, t, self.words_for(None, s, t)),
            15 | 16 => Line::Enter,
            17 | 18 => Line::Abandon,
            _ => Line::Ask(s, t),
        };
        self.put(line);
    }

    /// A pair of sections, some of which the chart does not have.
    fn random_pair(&mut self) -> (u32, u32) {
        let n = self.machine.register().chart().told().n();
        let mut section = || match self.random.below(100) {
            0..94 => self.random.below(n) as u32,
            94..97 => n as u32,
            97 => 31,
            98 => 32,
            _ => u32::MAX,
        };
        (section(), section())
    }

    /// Mostly a judged pair, and else any.
    fn mostly_judged_pair(&mut self) -> (u32, u32) {
        if self.random.percent(10) {
            return self.random_pair();
        }
        let judged: Vec<_> = self.machine.register().chart().told().judged_pairs().collect();
        let &(s, t) = self.random.pick(&judged);
        (s as u32, t as u32)
    }

    fn random_side(&mut self) -> Side {
        *self.random.pick(&[Side::Upper, Side::Lower])
    }

    /// Brings the register to rest.
    pub(super) fn rest(&mut self) {
        while !matches!(self.machine.register().phase(), Phase::Resting) {
            self.patience = self.patience.min(1);
            match self.random.percent(20) {
                true => _ = self.put(Line::Abandon),
                false => self.step(),
            }
        }
    }

    /// Sends a whole certificate, which a register at rest takes.
    pub(super) fn send(&mut self, certificate: &Certificate) {
        self.send_side(Side::Upper, &certificate.upper);
        if !certificate.lower.is_empty() {
            self.send_side(Side::Lower, &certificate.lower);
        }
        let register = self.machine.register();
        let settled = |(s, t)| register.bounds(s, t).verdict == Verdict::Settled;
        assert!(register.chart().told().judged_pairs().all(settled), "the certificate settles every judged pair");
    }

    fn send_side(&mut self, side: Side, shown: &[Shown]) {
        let mut order: Vec<usize> = (0..shown.len()).collect();
        self.put(Line::Open(side));
        self.random.shuffle(&mut order);
        for Shown { s, t, claim, .. } in order.iter().map(|&i| &shown[i]) {
            assert!(self.put(Line::Claim(*s as u32, *t as u32, *claim)), "the claim is taken");
        }
        self.put(Line::Close);
        self.random.shuffle(&mut order);
        for Shown { s, t, words, .. } in order.iter().map(|&i| &shown[i]) {
            assert!(self.put(Line::Show(*s as u32, *t as u32, words.clone())), "the claim is shown");
        }
        assert!(self.put(Line::Enter), "the claims are entered");
    }

    /// Asks for every pair.
    pub(super) fn ask_all(&mut self) {
        for (s, t) in self.machine.register().chart().told().pairs() {
            self.put(Line::Ask(s as u32, t as u32));
        }
    }
}
