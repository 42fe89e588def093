//! Document 02, M-112: what an accepted body holds beside its rows, which the archive does not take.
use super::{layout, u32_at, Layout};
use lines::{Packet, Refusal};

/// 45 with the lowest radial that has more than its row, else 46 where the body goes on after the radials or the payload.
pub fn surplus(body: &[u8]) -> Option<Refusal> {
    let Layout { packet, bins, data, .. } = layout(body);
    let lowest = data.iter().position(|data| has_surplus(packet, bins, &body[data.clone()]));
    if let Some(radial) = lowest {
        return Some(Refusal::new(45, &[radial as i128]));
    }
    let end = match packet {
        Packet::P28 => 24 + u32_at(body, 20),
        // a clear scan ends with its header
        _ => data.last().map_or(30, |last| last.end),
    };
    (body.len() != end).then(|| Refusal::new(46, &[]))
}

fn has_surplus(packet: Packet, bins: usize, data: &[u8]) -> bool {
    match packet {
        Packet::P16 => data.len() != bins && !(bins % 2 == 1 && data.len() == bins + 1),
        Packet::Af1f => data.iter().map(|run| (run >> 4) as usize).sum::<usize>() != bins,
        Packet::P28 => false,
    }
}
