//! An exact solver, for trials: the best showings in a table, and full certificates of charts whose distances are whole numbers over
//! a top. Nothing that it answers needs to be trusted, since every showing is weighed.

use crate::chart::Chart;
use crate::choice::{Choice, marked};
use crate::table::{Side, Table, Top};
use crate::told::Told;
use crate::transport::{Plan, cheapest};
use crate::weighted::Weighted;

/// A pairing that shows as small a claim as any for a judged pair in the table.
pub fn best_pairing(chart: &Chart, table: &Table, s: usize, t: usize) -> Vec<i32> {
    let cost = |u: usize, v: usize| i64::from(table.entry(u, v));
    match chart {
        Chart::Weighted(chart) => {
            let (from, to, plan) = optimal(chart, &cost, s, t);
            let cells = from.iter().enumerate().flat_map(|(i, &u)| to.iter().enumerate().map(move |(j, &v)| (i, j, u, v)));
            let flows = cells.map(|(i, j, u, v)| [u as i32, v as i32, plan.flow[i][j] as i32]);
            flows.filter(|&[_, _, amount]| amount > 0).flatten().collect()
        }
        Chart::Choice(chart) => {
            let nearest =
                |mask: u32, cost: &dyn Fn(usize) -> i64| marked(mask).min_by_key(|&x| cost(x)).expect("there is a successor");
            let first = marked(chart.mask(s)).map(|u| (u, nearest(chart.mask(t), &|v| cost(u, v))));
            let second = marked(chart.mask(t)).map(|v| (nearest(chart.mask(s), &|u| cost(u, v)), v));
            first.chain(second).flat_map(|(u, v)| [u as i32, v as i32]).collect()
        }
        Chart::Sittings(chart) => {
            let [first, second] = chart.charts();
            let mut words = best_pairing(first, table, s, t);
            words.insert(0, words.len() as i32);
            words.extend(best_pairing(second, table, s, t));
            words
        }
    }
}

/// Potentials that show as great a claim as any for a judged pair in the table.
pub fn best_potentials(chart: &Chart, table: &Table, s: usize, t: usize) -> Vec<i32> {
    let cost = |u: usize, v: usize| i64::from(table.entry(u, v));
    match chart {
        Chart::Weighted(chart) => {
            let n = chart.told().n();
            let (from, to, plan) = optimal(chart, &cost, s, t);
            let mut words = vec![0; 2 * n];
            from.iter().zip(&plan.alpha).for_each(|(&u, &alpha)| words[u] = alpha as i32);
            to.iter().zip(&plan.beta).for_each(|(&v, &beta)| words[n + v] = beta as i32);
            words
        }
        Chart::Choice(chart) => {
            let (floor, side, section) = furthest(chart, &cost, s, t);
            vec![i32::from(side), section as i32, floor as i32]
        }
        Chart::Sittings(chart) => {
            let showings = [0, 1].map(|sitting| {
                let mut words = best_potentials(&chart.charts()[sitting], table, s, t);
                words.insert(0, sitting as i32);
                words
            });
            let claim = |words: &Vec<i32>| chart.weigh_potentials(table, s as u32, t as u32, words).unwrap_or(0);
            showings.into_iter().max_by_key(claim).expect("there are two sittings")
        }
    }
}

/// The successors of s and of t, and an optimal plan between their parts.
fn optimal(chart: &Weighted, cost: &impl Fn(usize, usize) -> i64, s: usize, t: usize) -> (Vec<usize>, Vec<usize>, Plan) {
    let successors = |s: usize| -> Vec<usize> { (0..chart.told().n()).filter(|&u| chart.row(s)[u] > 0).collect() };
    let parts = |s: usize, successors: &[usize]| -> Vec<i64> { successors.iter().map(|&u| i64::from(chart.row(s)[u])).collect() };
    let (from, to) = (successors(s), successors(t));
    let plan = cheapest(&parts(s, &from), &parts(t, &to), |i, j| cost(from[i], to[j]));
    (from, to, plan)
}

/// The successor of s (side 0) or t (side 1) that is furthest from the nearest of the other's, and how far.
fn furthest(chart: &Choice, cost: &impl Fn(usize, usize) -> i64, s: usize, t: usize) -> (i64, u8, usize) {
    let (from, to) = (chart.mask(s), chart.mask(t));
    let first = marked(from).map(|u| (marked(to).map(|v| cost(u, v)).min(), 0, u));
    let second = marked(to).map(|v| (marked(from).map(|u| cost(u, v)).min(), 1, v));
    let (floor, side, section) = first.chain(second).max().expect("there is a successor");
    (floor.expect("there is a successor"), side, section)
}

/// A table, a pairing for each judged pair and, for each judged entry above 0, potentials.
pub struct Certificate {
    pub table: Table,
    pub upper: Vec<Shown>,
    pub lower: Vec<Shown>,
}

/// A pair with a claim and a showing of it.
pub struct Shown {
    pub s: usize,
    pub t: usize,
    pub claim: u32,
    pub words: Vec<i32>,
}

/// How many steps of a fixed-point table stand for one over the top.
const FINE: i64 = 4096;

/// How often all pairs are gone through, at most.
const ROUNDS: usize = 400;

/// A full certificate, if all distances are whole numbers over the top.
///
/// The distances are approached from below in steps of 1/4096. Rounding down at each pair leaves them at most b / (b − a) ≤ 1,000
/// steps too small, so the nearest whole number is the distance if any is. Then the best showings tell whether it is.
pub fn certificate(chart: &Chart, top: Top) -> Option<Certificate> {
    let told = chart.told();
    let near = approach(chart, FINE * i64::from(top.get()))?;
    let mut table = Table::starting(Side::Lower, told, top);
    for (s, t) in told.judged_pairs() {
        table.set(s, t, ((near[s * told.n() + t] + FINE / 2) / FINE) as u32);
    }
    let mut certificate = Certificate { upper: Vec::new(), lower: Vec::new(), table };
    for (s, t) in told.judged_pairs() {
        let claim = certificate.table.entry(s, t);
        let exact = |side, words: &[i32]| chart.weigh(side, &certificate.table, s as u32, t as u32, words) == Ok(claim);
        let words = best_pairing(chart, &certificate.table, s, t);
        if !exact(Side::Upper, &words) {
            return None;
        }
        let potentials = best_potentials(chart, &certificate.table, s, t);
        if claim > 0 && !exact(Side::Lower, &potentials) {
            return None;
        }
        certificate.upper.push(Shown { s, t, claim, words });
        if claim > 0 {
            certificate.lower.push(Shown { s, t, claim, words: potentials });
        }
    }
    Some(certificate)
}

/// The table over the top that one reaches from below, with every step rounded down, or none if that takes too long.
fn approach(chart: &Chart, top: i64) -> Option<Vec<i64>> {
    let told = chart.told();
    let n = told.n();
    let mut table: Vec<i64> = told.pairs().map(|(s, t)| if told.apart(s, t) { top } else { 0 }).collect();
    for _ in 0..ROUNDS {
        let mut changed = false;
        for (s, t) in told.judged_pairs().filter(|(s, t)| s != t) {
            let entry = step(chart, told, &table, s, t);
            changed |= entry != table[s * n + t];
            table[s * n + t] = entry;
        }
        if !changed {
            return Some(table);
        }
    }
    None
}

/// The discounted distance of the two sections' successors in the table, rounded down.
fn step(chart: &Chart, told: &Told, table: &[i64], s: usize, t: usize) -> i64 {
    let cost = |u: usize, v: usize| table[u * told.n() + v];
    let discounted = |sum: i128, whole: u16| {
        let discount = told.discount();
        (i128::from(discount.a()) * sum / (i128::from(discount.b()) * i128::from(whole))) as i64
    };
    match chart {
        Chart::Weighted(chart) => {
            let (from, to, plan) = optimal(chart, &cost, s, t);
            let priced = |s: usize, sections: &[usize], prices: &[i64]| -> i128 {
                sections.iter().zip(prices).map(|(&u, &price)| i128::from(chart.row(s)[u]) * i128::from(price)).sum()
            };
            discounted(priced(s, &from, &plan.alpha) + priced(t, &to, &plan.beta), chart.whole())
        }
        Chart::Choice(chart) => discounted(i128::from(furthest(chart, &cost, s, t).0), 1),
        Chart::Sittings(chart) => {
            let [first, second] = chart.charts();
            step(first, told, table, s, t).max(step(second, told, table, s, t))
        }
    }
}
