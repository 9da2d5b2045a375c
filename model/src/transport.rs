//! The transport problem in whole numbers: the cheapest way to carry supplies to demands, and prices that prove it cheapest.

/// An optimal plan: `flow[i][j]` goes from supply i to demand j, and `alpha[i] + beta[j]` is at most the cost of (i, j), and equal
/// to it where something flows.
pub struct Plan {
    pub flow: Vec<Vec<i64>>,
    pub alpha: Vec<i64>,
    pub beta: Vec<i64>,
}

/// A supply or demand that the search has reached, how far away, and what comes before it on the way.
#[derive(Clone, Copy)]
struct Reached {
    distance: i64,
    from: usize,
}

/// The shortest ways, in reduced costs, from one supply to demands, up to the nearest that is not met.
struct Search {
    supplies: Vec<Option<Reached>>,
    demands: Vec<Option<Reached>>,
    done: Vec<bool>,
}

/// Finds an optimal plan. The supplies and demands are above 0 and have the same sum. This is the method of shortest augmenting
/// paths: the prices stay within the costs all the time, and something only flows where they meet them.
pub fn cheapest(supplies: &[i64], demands: &[i64], cost: impl Fn(usize, usize) -> i64) -> Plan {
    let (m, n) = (supplies.len(), demands.len());
    let least = |i| (0..n).map(|j| cost(i, j)).min().expect("there is a demand");
    let mut plan = Plan { flow: vec![vec![0; n]; m], alpha: (0..m).map(least).collect(), beta: vec![0; n] };
    let mut demands = demands.to_vec();
    for (source, &supply) in supplies.iter().enumerate() {
        let mut supply = supply;
        while supply > 0 {
            let (search, target) = Search::run(&plan, source, &demands, &cost);
            plan.reprice(&search, target);
            let amount = plan.augment(&search, source, target, supply.min(demands[target]));
            supply -= amount;
            demands[target] -= amount;
        }
    }
    plan.raise(&cost);
    plan
}

impl Search {
    /// Searches from a supply, and answers the nearest demand that is not met.
    fn run(plan: &Plan, source: usize, demands: &[i64], cost: &impl Fn(usize, usize) -> i64) -> (Search, usize) {
        let (m, n) = (plan.alpha.len(), plan.beta.len());
        let mut search = Search { supplies: vec![None; m], demands: vec![None; n], done: vec![false; n] };
        search.reach(plan, source, Reached { distance: 0, from: source }, cost);
        loop {
            let reached = (0..n).filter(|&j| !search.done[j]).filter_map(|j| Some((search.demands[j]?.distance, j)));
            let (distance, j) = reached.min().expect("some demand is not met");
            search.done[j] = true;
            if demands[j] > 0 {
                return (search, j);
            }
            // What flows from a supply to j can be sent elsewhere; the reduced cost of that is 0.
            for i in 0..m {
                if plan.flow[i][j] > 0 && search.supplies[i].is_none() {
                    search.reach(plan, i, Reached { distance, from: j }, cost);
                }
            }
        }
    }

    /// Reaches a supply, and from it every demand that is not done.
    fn reach(&mut self, plan: &Plan, i: usize, reached: Reached, cost: &impl Fn(usize, usize) -> i64) {
        self.supplies[i] = Some(reached);
        for j in (0..self.demands.len()).filter(|&j| !self.done[j]) {
            let distance = reached.distance + cost(i, j) - plan.alpha[i] - plan.beta[j];
            if self.demands[j].is_none_or(|before| distance < before.distance) {
                self.demands[j] = Some(Reached { distance, from: i });
            }
        }
    }
}

impl Plan {
    /// Changes the prices so that the way to the target has reduced costs 0.
    fn reprice(&mut self, search: &Search, target: usize) {
        let length = search.demands[target].expect("the target is reached").distance;
        for (alpha, reached) in self.alpha.iter_mut().zip(&search.supplies) {
            *alpha += reached.map_or(0, |reached| length - reached.distance);
        }
        for (j, beta) in self.beta.iter_mut().enumerate().filter(|&(j, _)| search.done[j]) {
            *beta -= search.demands[j].map_or(0, |reached| length - reached.distance);
        }
    }

    /// Sends as much as can go, up to the limit, along the way from the source to the target.
    fn augment(&mut self, search: &Search, source: usize, target: usize, limit: i64) -> i64 {
        let mut steps = Vec::new();
        let mut amount = limit;
        let mut j = target;
        loop {
            let i = search.demands[j].expect("the way is reached").from;
            if i == source {
                steps.push((i, j, None));
                break;
            }
            let back = search.supplies[i].expect("the way is reached").from;
            steps.push((i, j, Some(back)));
            amount = amount.min(self.flow[i][back]);
            j = back;
        }
        for (i, j, back) in steps {
            self.flow[i][j] += amount;
            if let Some(back) = back {
                self.flow[i][back] -= amount;
            }
        }
        amount
    }

    /// Raises the prices as far as the costs allow, and shifts them so that the least α is 0. Then no price is further from 0 than
    /// the greatest cost, if no cost is below 0.
    fn raise(&mut self, cost: &impl Fn(usize, usize) -> i64) {
        let (m, n) = (self.alpha.len(), self.beta.len());
        for j in 0..n {
            self.beta[j] = (0..m).map(|i| cost(i, j) - self.alpha[i]).min().expect("there is a supply");
        }
        for i in 0..m {
            self.alpha[i] = (0..n).map(|j| cost(i, j) - self.beta[j]).min().expect("there is a demand");
        }
        let least = *self.alpha.iter().min().expect("there is a supply");
        self.alpha.iter_mut().for_each(|alpha| *alpha -= least);
        self.beta.iter_mut().for_each(|beta| *beta += least);
    }
}

#[cfg(test)]
mod tests {
    use super::*;
    use crate::random::Random;

    #[test]
    fn prices_prove_the_plan_cheapest() {
        let mut random = Random::new(1);
        for _ in 0..2000 {
            let (m, n) = (1 + random.below(6), 1 + random.below(6));
            let mut supplies: Vec<i64> = (0..m).map(|_| random.between(1, 9)).collect();
            let mut demands: Vec<i64> = (0..n).map(|_| random.between(1, 9)).collect();
            let (sum, other) = (supplies.iter().sum::<i64>(), demands.iter().sum::<i64>());
            supplies[0] += (other - sum).max(0);
            demands[0] += (sum - other).max(0);
            let costs: Vec<i64> = (0..m * n).map(|_| random.between(0, 20)).collect();
            let cost = |i: usize, j: usize| costs[i * n + j];
            let plan = cheapest(&supplies, &demands, cost);
            let carried: i64 = (0..m * n).map(|cell| plan.flow[cell / n][cell % n] * cost(cell / n, cell % n)).sum();
            let priced = |prices: &[i64], amounts: &[i64]| prices.iter().zip(amounts).map(|(p, a)| p * a).sum::<i64>();
            assert_eq!(carried, priced(&plan.alpha, &supplies) + priced(&plan.beta, &demands));
            for (i, &supply) in supplies.iter().enumerate() {
                assert_eq!(plan.flow[i].iter().sum::<i64>(), supply);
                assert!((0..n).all(|j| plan.flow[i][j] >= 0 && plan.alpha[i] + plan.beta[j] <= cost(i, j)));
                assert!((0..=20).contains(&plan.alpha[i]));
            }
            for (j, &demand) in demands.iter().enumerate() {
                assert_eq!((0..m).map(|i| plan.flow[i][j]).sum::<i64>(), demand);
                assert!((-20..=20).contains(&plan.beta[j]));
            }
        }
    }
}
