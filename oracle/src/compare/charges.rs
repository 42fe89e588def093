//! M-106 in the runs: the fixed cases, and its laws between the port's own answers.
use super::fixed::lists;
use super::Compare;
use crate::make::{cases, Rng};
use crate::sample;
use lines::{Answer, Case};

const TOP: u64 = 1 << 40;

impl Compare {
    /// A charge, and its sum if it is accepted: charge × 1,000 + remainder, which is below 1,000.
    fn charged(&mut self, total: u64, ends: &[u64], rates: &[u32]) -> Option<[u128; 2]> {
        let case = Case::Charge { total, ends: ends.to_vec(), rates: rates.to_vec() };
        let (_, port) = self.both(&case);
        let Answer::Charge { charge, remainder } = port else { return None };
        if remainder >= 1000 {
            self.differs("the remainder must be below 1,000", &case, &[("port", &port)]);
        }
        Some([charge, charge * 1000 + remainder])
    }

    /// A larger total is never charged less; the parts, each of them what one more of its rate adds to the sum, add up to the total; and
    /// times their rates to the sum.
    pub fn charge_laws(&mut self, rng: &mut Rng) {
        let (ends, rates, mut totals) = cases::charges(rng);
        totals.sort();
        let [total, larger] = totals;
        let (less, more) = (self.charged(total, &ends, &rates), self.charged(larger, &ends, &rates));
        let Some([charge, sum]) = less else { return };
        let case = Case::Charge { total, ends: ends.clone(), rates: rates.clone() };
        if more.is_some_and(|[more, _]| more < charge) {
            self.promise(&format!("{larger} is charged less: {}", case.line("charge")), false);
        }
        self.counts.charge_laws[0] += more.is_some() as u64;
        let mut parts = vec![];
        for band in 0..rates.len() {
            let mut other = rates.clone();
            // the highest rate has none above it
            let up = rates[band] < 65_535;
            other[band] = if up { rates[band] + 1 } else { rates[band] - 1 };
            let Some([_, again]) = self.charged(total, &ends, &other) else { return };
            parts.push(if up { again.checked_sub(sum) } else { sum.checked_sub(again) });
        }
        let parts: Option<Vec<u128>> = parts.into_iter().collect();
        let holds = parts.is_some_and(|parts| {
            let by_rates: u128 = parts.iter().zip(&rates).map(|(part, rate)| part * u128::from(*rate)).sum();
            parts.iter().sum::<u128>() == u128::from(total) && by_rates == sum
        });
        if !holds {
            self.promise(&format!("the parts do not add up: {}", case.line("charge")), false);
        }
        self.counts.charge_laws[1] += 1;
    }

    pub(super) fn charges_fixed(&mut self) {
        for (_, case) in sample::charges() {
            self.both(&case);
        }
        let totals = [0, 1, 2, 3, TOP - 1, TOP, TOP + 1, u64::MAX];
        let all_rates = lists(&[0, 1, 65_535, 65_536], 3);
        for ends in lists(&[0, 1, 2, TOP - 1, TOP, TOP + 1, u64::MAX], 3) {
            for rates in &all_rates {
                // of unequal lists one total is enough: they are malformed
                let totals = if rates.len() == ends.len() { &totals[..] } else { &totals[5..7] };
                for total in totals {
                    self.charged(*total, &ends, rates);
                }
            }
        }
        // every number of bands beside every number of rates
        for (bands, rates) in (0..=11).flat_map(|bands| (0..=11).map(move |rates| (bands, rates))) {
            let mut ends: Vec<u64> = (1..=bands).map(|k| 1000 * k).collect();
            if let Some(last) = ends.last_mut() {
                *last = TOP;
            }
            let rates: Vec<u32> = (0..rates).map(|k| 65_535 - 7 * k).collect();
            for total in [0, 2999, 3000, 3001, 9999, TOP, TOP + 1] {
                self.charged(total, &ends, &rates);
            }
        }
        // unit by unit through every band: each unit adds the rate of the band that it is in
        for ends in [vec![TOP], vec![1, TOP], vec![0, 3, TOP], vec![1, 2, 4, 8, 16, 32, 48, TOP]] {
            let rates: Vec<u32> = (0..ends.len()).map(|k| [333, 65_535, 0, 999, 1001][k % 5]).collect();
            let mut sum = 0;
            for total in 0..=64 {
                let given = self.charged(total, &ends, &rates);
                if given.is_none_or(|[_, s]| s != sum) {
                    self.promise(&format!("{total} units by {ends:?} and {rates:?} give other than {sum}"), false);
                }
                let band = ends.iter().position(|end| total < *end).unwrap();
                sum += u128::from(rates[band]);
            }
        }
    }
}
