//! A charge worked out once more, from document 02's sentences, with a place for each slip.
use super::{slips, Slip::*};
use lines::{Answer, Refusal};

const MOST: u64 = 1 << 40;

fn well_formed(ends: &[u64], rates: &[u32]) -> bool {
    let bands = if slips(NineBandsPass) { 1..=9 } else { 1..=8 };
    let ascends = |pair: &[u64]| pair[0] < pair[1] || pair[0] == pair[1] && slips(EqualEndsPass);
    let compared = if slips(FirstEndsAloneCompared) { ends.len().min(2) } else { ends.len() };
    let far = |last: u64| last >= MOST + slips(LastEndAbove2To40) as u64 || slips(LowLastEndPasses);
    let rate_most = if slips(RatesUnbounded) || slips(RatesIn16Bits) { u32::MAX } else { 65_535 };
    (bands.contains(&ends.len()) || ends.is_empty() && slips(NoBandsPass))
        && (ends.len() == rates.len() || slips(ShorterListTaken))
        && ends[..compared].windows(2).all(ascends)
        && ends.last().is_none_or(|last| far(*last))
        && !(slips(FirstEnd0Refused) && ends.first() == Some(&0))
        && rates.iter().all(|rate| *rate <= rate_most)
}

pub(super) fn read(total: u64, ends: &[u64], rates: &[u32]) -> Answer {
    let refused = |number| Answer::Refused(Refusal::new(number, &[]));
    let large = total > MOST - slips(TotalAt2To40Refused) as u64;
    match (well_formed(ends, rates), large) {
        (false, true) if slips(TooLargeBeforeMalformed) => return refused(41),
        (false, _) => return refused(40),
        (true, true) => return refused(41),
        (true, false) => {}
    }
    // what is left of the total goes from band to band
    let (mut left, mut from, mut sum, mut rounded) = (u128::from(total), 0, 0, 0);
    for (end, rate) in ends.iter().zip(rates) {
        let rate = if slips(RatesIn16Bits) { u128::from(*rate as u16) } else { u128::from(*rate) };
        let width = u128::from(end.saturating_sub(from)).saturating_sub((slips(EndInNextBand) && *end > 0) as u128);
        let part = left.min(width);
        if slips(WholeTotalByItsBand) && left > 0 {
            sum = u128::from(total) * rate;
        } else if !slips(WholeTotalByItsBand) {
            sum += part * rate;
        }
        rounded += part * rate / 1000;
        (left, from) = (left - part, *end);
    }
    let charge = match () {
        _ if slips(EachBandRounded) => rounded,
        _ if slips(RoundedToNearest) => (sum + 500) / 1000,
        _ if slips(ChargeIn32Bits) => u128::from((sum / 1000) as u32),
        _ => sum / 1000,
    };
    Answer::Charge { charge, remainder: if slips(RemainderDropped) { 0 } else { sum % 1000 } }
}
