//! Showings for trials: valid ones, good or not, and damaged ones.

use crate::chart::Chart;
use crate::choice::{self, Choice, marked};
use crate::random::Random;
use crate::sittings::Sittings;
use crate::solver::{best_pairing, best_potentials};
use crate::table::{Side, Table};
use crate::weighted::{self, Weighted};

/// A judged pair for which something is to be shown in a table of a side.
#[derive(Clone, Copy)]
pub struct Question<'a> {
    pub chart: &'a Chart,
    pub side: Side,
    pub table: &'a Table,
    pub s: usize,
    pub t: usize,
}

impl Question<'_> {
    /// The claim that the words show, if they are valid.
    pub fn claim(&self, words: &[i32]) -> Option<u32> {
        self.chart.weigh(self.side, self.table, self.s as u32, self.t as u32, words).ok()
    }

    fn top(&self) -> i64 {
        i64::from(self.table.top().get())
    }

    fn entry(&self, u: usize, v: usize) -> i64 {
        i64::from(self.table.entry(u, v))
    }
}

/// A showing that shows as much as any.
pub fn best(question: &Question) -> Vec<i32> {
    match question.side {
        Side::Upper => best_pairing(question.chart, question.table, question.s, question.t),
        Side::Lower => best_potentials(question.chart, question.table, question.s, question.t),
    }
}

/// A valid showing.
pub fn valid(random: &mut Random, question: &Question) -> Vec<i32> {
    match (question.chart, question.side) {
        (Chart::Weighted(chart), Side::Upper) => coupling(random, chart, question),
        (Chart::Weighted(chart), Side::Lower) if random.percent(50) => potentials(random, chart, question),
        (Chart::Weighted(_), Side::Lower) => shifted(random, question),
        (Chart::Choice(chart), Side::Upper) => relation(random, chart, question),
        (Chart::Choice(chart), Side::Lower) => floor(random, chart, question),
        (Chart::Sittings(chart), Side::Upper) => {
            let [first, second] = chart.charts();
            let words = valid(random, &Question { chart: first, ..*question });
            joined(words, valid(random, &Question { chart: second, ..*question }))
        }
        (Chart::Sittings(chart), Side::Lower) => {
            let sitting = random.below(2);
            let mut words = valid(random, &Question { chart: &chart.charts()[sitting], ..*question });
            words.insert(0, sitting as i32);
            words
        }
    }
}

/// The words of a pairing for two sittings.
fn joined(mut first: Vec<i32>, second: Vec<i32>) -> Vec<i32> {
    first.insert(0, first.len() as i32);
    first.extend(second);
    first
}

/// Any coupling of the two rows, in triples.
fn coupling(random: &mut Random, chart: &Weighted, question: &Question) -> Vec<i32> {
    let mut left = |s: usize| {
        let parts = chart.row(s).iter().enumerate().filter(|(_, part)| **part > 0);
        let mut parts: Vec<(usize, u16)> = parts.map(|(u, &part)| (u, part)).collect();
        random.shuffle(&mut parts);
        parts
    };
    let (mut from, mut to) = (left(question.s), left(question.t));
    let mut triples = Vec::new();
    while let (Some((u, supply)), Some((v, demand))) = (from.last_mut(), to.last_mut()) {
        let amount = (*supply).min(*demand);
        let amount = if amount > 1 && random.percent(5) { random.between(1, i64::from(amount)) as u16 } else { amount };
        triples.push([*u as i32, *v as i32, i32::from(amount)]);
        *supply -= amount;
        *demand -= amount;
        from.retain(|(_, supply)| *supply > 0);
        to.retain(|(_, demand)| *demand > 0);
    }
    random.shuffle(&mut triples);
    triples.concat()
}

/// Any valid potentials.
fn potentials(random: &mut Random, chart: &Weighted, question: &Question) -> Vec<i32> {
    let (n, top) = (chart.told().n(), question.top());
    let (from, to) = (chart.row(question.s), chart.row(question.t));
    let mut words = vec![0; 2 * n];
    for u in 0..n {
        words[u] = match random.below(4) {
            _ if from[u] == 0 && random.percent(80) => 0,
            0 => 0,
            1 => *random.pick(&[top, -top]),
            _ => random.between(-top, top),
        };
    }
    for v in 0..n {
        let room = (0..n).filter(|&u| from[u] > 0).map(|u| question.entry(u, v) - words[u]).min();
        words[n + v] = match room {
            Some(room) if to[v] > 0 => room.min(top),
            _ if random.percent(20) => random.between(-top, top),
            _ => 0,
        };
    }
    words.into_iter().map(|word| word as i32).collect()
}

/// The best potentials, with some number added to each α and taken from each β that matters.
fn shifted(random: &mut Random, question: &Question) -> Vec<i32> {
    let mut words = best(question);
    let (alpha, beta) = words.split_at_mut(question.table.n());
    let extreme = |words: &[i32], sign: i64| words.iter().map(|&word| sign * i64::from(word)).max().expect("there is a word");
    let most = (question.top() - extreme(alpha, 1)).min(question.top() - extreme(beta, -1));
    let least = (question.top() - extreme(alpha, -1)).min(question.top() - extreme(beta, 1));
    let shift = match random.below(4) {
        0 => most,
        1 => -least,
        _ => random.between(-least, most),
    };
    alpha.iter_mut().for_each(|word| *word += shift as i32);
    beta.iter_mut().for_each(|word| *word -= shift as i32);
    words
}

/// Any pairs of successors, with each successor in some pair.
fn relation(random: &mut Random, chart: &Choice, question: &Question) -> Vec<i32> {
    let from: Vec<usize> = marked(chart.mask(question.s)).collect();
    let to: Vec<usize> = marked(chart.mask(question.t)).collect();
    let mut pairs: Vec<[i32; 2]> = Vec::new();
    for i in 0..from.len().max(to.len()) {
        let u = from.get(i).copied().unwrap_or_else(|| *random.pick(&from));
        let v = to.get(i).copied().unwrap_or_else(|| *random.pick(&to));
        pairs.push([u as i32, v as i32]);
    }
    for _ in 0..random.below(3) {
        pairs.push([*random.pick(&from) as i32, *random.pick(&to) as i32]);
    }
    random.shuffle(&mut pairs);
    pairs.concat()
}

/// Any successor, with a floor under its entries with the other's.
fn floor(random: &mut Random, chart: &Choice, question: &Question) -> Vec<i32> {
    let side = random.below(2);
    let (own, other) = if side == 0 { (question.s, question.t) } else { (question.t, question.s) };
    let own: Vec<usize> = marked(chart.mask(own)).collect();
    let section = *random.pick(&own);
    let entry = |other| if side == 0 { question.entry(section, other) } else { question.entry(other, section) };
    let nearest = marked(chart.mask(other)).map(entry).min().expect("there is a successor");
    let floor = if random.percent(20) { random.between(0, nearest) } else { nearest };
    vec![side as i32, section as i32, floor as i32]
}

/// The showing with something changed in it.
pub fn damaged(random: &mut Random, question: &Question, mut words: Vec<i32>) -> Vec<i32> {
    if let Chart::Sittings(chart) = question.chart
        && random.percent(80)
    {
        return damaged_within(random, question, chart, &words);
    }
    if random.percent(30) {
        damage_length(random, question, &mut words);
    } else if words.is_empty() {
        words.push(odd_word(random, question));
    } else if random.percent(25) {
        damage_word(random, question, &mut words);
    } else {
        match (question.chart, question.side) {
            (Chart::Weighted(chart), Side::Upper) => damage_triple(random, question, chart, &mut words),
            (Chart::Choice(_), Side::Upper) => damage_pair(random, question, &mut words),
            (Chart::Weighted(_), Side::Lower) => damage_potential(random, question, &mut words),
            (Chart::Choice(_), Side::Lower) => damage_floor(random, question, &mut words),
            (Chart::Sittings(_), _) => damage_first_word(random, question, &mut words),
        }
    }
    words
}

/// The showing of two sittings, with something changed in that of one.
fn damaged_within(random: &mut Random, question: &Question, chart: &Sittings, words: &[i32]) -> Vec<i32> {
    if question.side == Side::Lower {
        let (sitting, words) = Sittings::sitting(words).expect("the showing is valid");
        let mut words = damaged(random, &Question { chart: &chart.charts()[usize::from(sitting)], ..*question }, words.to_vec());
        words.insert(0, i32::from(sitting));
        return words;
    }
    let [mut first, mut second] = Sittings::split(words).expect("the showing is valid").map(<[i32]>::to_vec);
    let [chart, other] = chart.charts();
    match random.below(2) {
        0 => first = damaged(random, &Question { chart, ..*question }, first),
        _ => second = damaged(random, &Question { chart: other, ..*question }, second),
    }
    joined(first, second)
}

/// Adds words or takes some away.
fn damage_length(random: &mut Random, question: &Question, words: &mut Vec<i32>) {
    let place = random.below(words.len() + 1);
    match random.below(6) {
        0 if random.percent(30) => words.clear(),
        0 | 1 => words.truncate(place),
        2 => words.insert(place, odd_word(random, question)),
        3 => words.push(odd_word(random, question)),
        4 if place < words.len() => {
            words.remove(place);
        }
        _ => drop_group(random, question, words),
    }
}

/// Drops one triple of a weighted pairing, one pair of a choice pairing, or a word.
fn drop_group(random: &mut Random, question: &Question, words: &mut Vec<i32>) {
    let size = match (question.chart, question.side) {
        (Chart::Weighted(_), Side::Upper) => 3,
        (Chart::Choice(_), Side::Upper) => 2,
        _ => 1,
    };
    if words.len() >= size {
        let start = size * random.below(words.len() / size);
        words.drain(start..start + size);
    }
}

/// Changes any word in any way, or exchanges two.
fn damage_word(random: &mut Random, question: &Question, words: &mut [i32]) {
    let (place, other) = (random.below(words.len()), random.below(words.len()));
    match random.below(4) {
        0 => words.swap(place, other),
        1 => words[place] = words[place].wrapping_add(1),
        2 => words[place] = words[place].wrapping_sub(1),
        _ => words[place] = odd_word(random, question),
    }
}

/// Changes a triple of a weighted pairing, or two.
fn damage_triple(random: &mut Random, question: &Question, chart: &Weighted, words: &mut [i32]) {
    let triples = words.len() / 3;
    let (triple, other) = (3 * random.below(triples), 3 * random.below(triples));
    let whole = i32::from(chart.whole());
    let section = random.below(question.table.n()) as i32;
    match random.below(6) {
        0 => words[triple + 2] = *random.pick(&[0, -1, whole, whole + 1, 10_000, 10_001, i32::MAX, i32::MIN, -whole]),
        1 => words[triple + random.below(2)] = odd_word(random, question),
        2 => words[triple] = section,
        3 => words[triple + 1] = section,
        4 => {
            words[triple + 2] -= 1;
            words[other + 2] += 1;
        }
        _ => words.swap(triple + 1, other + 1),
    }
}

/// Changes a pair of a choice pairing.
fn damage_pair(random: &mut Random, question: &Question, words: &mut [i32]) {
    let pair = 2 * random.below(words.len() / 2);
    match random.below(6) {
        0 => words[pair + random.below(2)] = odd_word(random, question),
        1 => words[pair + random.below(2)] = random.below(question.table.n()) as i32,
        2 => words.swap(pair, pair + 1),
        // A section gives way to another, or all on its side do.
        _ => {
            let place = random.below(2);
            let all = random.percent(40);
            let gone = words[pair + place];
            let other = words[2 * random.below(words.len() / 2) + place];
            let on_its_side = words.iter_mut().skip(place).step_by(2);
            on_its_side.filter(|word| all || **word == gone).for_each(|word| *word = other);
        }
    }
}

/// Changes one of the potentials of a weighted chart.
fn damage_potential(random: &mut Random, question: &Question, words: &mut [i32]) {
    let top = question.top() as i32;
    let place = random.below(words.len());
    words[place] = match random.below(5) {
        0 | 1 => words[place] + 1,
        2 => *random.pick(&[top, -top]),
        3 => *random.pick(&[top + 1, -top - 1, i32::MAX, i32::MIN]),
        _ => random.between(-question.top(), question.top()) as i32,
    };
}

/// Changes one of the three words of a choice chart's potentials.
fn damage_floor(random: &mut Random, question: &Question, words: &mut [i32]) {
    let top = question.top() as i32;
    match (random.below(6), words) {
        (0, [side, ..]) => *side = *random.pick(&[2, -1, i32::MAX, i32::MIN]),
        (1, [side, ..]) => *side = 1 - *side,
        (2 | 3, [_, section, ..]) => *section = random.below(question.table.n()) as i32,
        (4, [.., floor]) => *floor = *random.pick(&[top + 1, -1, top, i32::MAX, i32::MIN]),
        (_, [.., floor]) => *floor += 1,
        (_, []) => (),
    }
}

/// Changes the word that says where sitting 0 ends, or which sitting it is.
fn damage_first_word(random: &mut Random, question: &Question, words: &mut [i32]) {
    let left = words.len() as i32 - 1;
    words[0] = match question.side {
        Side::Upper => *random.pick(&[-1, left, left + 1, i32::MAX, i32::MIN, 0, words[0] + 1, words[0] - 1]),
        Side::Lower => *random.pick(&[2, -1, 1 - words[0], i32::MAX, i32::MIN]),
    };
}

/// A word at some edge, or any small one.
fn odd_word(random: &mut Random, question: &Question) -> i32 {
    let top = question.top() as i32;
    let n = question.table.n() as i32;
    let edges = [0, 1, 2, -1, n, n - 1, 31, 32, top, top + 1, -top, -top - 1, 10_000, 10_001, i32::MAX, i32::MIN];
    match random.percent(70) {
        true => *random.pick(&edges),
        false => random.below(question.table.n()) as i32,
    }
}

/// The pairing, in some sitting of some length near the longest there is; mostly valid where its parts can be split so often.
/// Potentials stay as they are.
pub fn stretched(random: &mut Random, question: &Question, words: Vec<i32>) -> Vec<i32> {
    match question.chart {
        _ if question.side == Side::Lower => words,
        Chart::Weighted(chart) => {
            let count = weighted::LONGEST_PAIRING / 3 + usize::from(random.percent(40));
            if random.percent(20) {
                // The same triple all along, of the greatest amount, so that the sums are as large as can be.
                return [words[0], words[1], i32::from(chart.whole())].repeat(count);
            }
            split_triples(random, &words, count)
        }
        Chart::Choice(_) => {
            let count = choice::LONGEST_PAIRING / 2 + usize::from(random.percent(40));
            let pairs: Vec<&[i32]> = words.chunks_exact(2).collect();
            (0..count).map(|i| if i < pairs.len() { pairs[i] } else { random.pick(&pairs) }).collect::<Vec<_>>().concat()
        }
        Chart::Sittings(chart) => {
            let [mut first, mut second] = Sittings::split(&words).expect("the showing is valid").map(<[i32]>::to_vec);
            let [chart, other] = chart.charts();
            if random.percent(60) {
                first = stretched(random, &Question { chart, ..*question }, first);
            }
            if random.percent(60) {
                second = stretched(random, &Question { chart: other, ..*question }, second);
            }
            joined(first, second)
        }
    }
}

/// The triples, with amounts split until there are that many; where that cannot be, some triples stand there more than once.
fn split_triples(random: &mut Random, words: &[i32], count: usize) -> Vec<i32> {
    let mut triples: Vec<[i32; 3]> = words.chunks_exact(3).map(|triple| [triple[0], triple[1], triple[2]]).collect();
    let mut next = 0;
    while triples.len() < count {
        match triples.iter().skip(next).position(|triple| triple[2] > 1) {
            Some(skipped) => {
                next += skipped;
                let amount = random.between(1, i64::from(triples[next][2]) - 1) as i32;
                let most = (count - triples.len()) as i32;
                let amount = amount.min(1.max(triples[next][2] / most));
                triples[next][2] -= amount;
                triples.push([triples[next][0], triples[next][1], amount]);
            }
            None => triples.push(*random.pick(&triples)),
        }
    }
    triples.concat()
}
