//! The archive profile worked out once more, from document 02's sentences and the ordinary answer, with a place for each slip.
use super::{answer, slips, Slip::*};
use lines::{Answer, Case, Refusal};

fn halfword(body: &[u8], at: usize) -> usize {
    u16::from_be_bytes([body[at], body[at + 1]]).into()
}

pub(super) fn read(case: &Case) -> Answer {
    let Case::Sweep { body, .. } = case else { unreachable!() };
    let given = answer(case);
    let surplus = match given.refusal() {
        None => surplus(body),
        Some(r) => match r.number {
            10 if slips(StrictAfter10) => None,
            36 if slips(StrictAfterRoom) => None,
            9 | 10 | 36 => surplus(body),
            19..=22 if slips(StrictBeforeLaterRadial) => in_row(body, r.ints[0] as usize).0,
            _ => None,
        },
    };
    surplus.map_or(given, Answer::Refused)
}

fn surplus(body: &[u8]) -> Option<Refusal> {
    let (in_row, rest) = if halfword(body, 16) == 28 {
        let length = u32::from_be_bytes(body[20..24].try_into().unwrap()) as usize;
        let rest = body.len() - 24 - length;
        (None, if slips(StrictPayloadTailPasses) { 0 } else { rest })
    } else {
        let radials = halfword(body, 28);
        let (in_row, end) = in_row(body, radials);
        let rest = body.len() - end;
        let passes = slips(StrictTailPasses) || slips(StrictClearTailPasses) && radials == 0;
        (in_row, if passes || slips(StrictTailBytePasses) && rest == 1 { 0 } else { rest })
    };
    let after = (rest > 0).then(|| Refusal::new(46, &[]));
    if slips(StrictEndFirst) {
        return after.or(in_row);
    }
    in_row.or(after)
}

/// 45 of the first radials of packet 16 or AF1F, all of which are there, and where the last of them ends.
fn in_row(body: &[u8], radials: usize) -> (Option<Refusal>, usize) {
    let (sixteen, bins) = (halfword(body, 16) == 16, halfword(body, 20));
    let (mut named, mut at) = (None, 30);
    for radial in 0..radials {
        let count = halfword(body, at);
        let to = at + 6 + if sixteen { count } else { 2 * count };
        let data = &body[at + 6..to];
        let over = if sixteen { count_over(bins, data) } else { runs_over(bins, data) };
        if over && (named.is_none() || slips(StrictLastRadialNamed)) {
            named = Some(Refusal::new(45, &[radial as i128]));
        }
        at = to;
    }
    (named, at)
}

fn count_over(bins: usize, data: &[u8]) -> bool {
    if data.len() == bins || slips(StrictCountPasses) {
        return false;
    }
    let mut passes = bins % 2 == 1 && !slips(StrictOddMoreRefused) || slips(StrictEvenMorePasses);
    if slips(StrictOddMoreIsZero) && data.last() != Some(&0) {
        passes = false;
    }
    !(passes && data.len() == bins + 1)
}

fn runs_over(bins: usize, data: &[u8]) -> bool {
    let lengths = data.iter().map(|run| usize::from(run / 16));
    if slips(StrictRunsAfterRowPass) {
        return false;
    }
    if slips(StrictZeroRunCounts) {
        return lengths.map(|n| n.max(1)).sum::<usize>() != bins;
    }
    lengths.sum::<usize>() != bins
}
