//! The rules of the round for one node, from its own records and from what it knows of the far
//! ends of its links. Who tells it that, a recursion or messages, is the caller's affair.

use super::messages::Message;
use super::sheet::Sheet;

const WHOLE: u128 = 65_536;

/// D' of a line at this load step.
pub fn marginal_delay(load_step: u8) -> u64 {
    let free = 256 - u64::from(load_step);
    1_048_576 / (free * free)
}

/// c(i,b): D' of the link and the delay of its far end.
fn cost(sheet: &Sheet, link: usize, far: Message) -> u64 {
    marginal_delay(sheet.links[link].load_step) + far.delay
}

/// MD of a node. Only far ends of flowing links are asked for.
pub fn delay(sheet: &Sheet, node: usize, far: &mut dyn FnMut(usize) -> Message) -> u64 {
    if node == sheet.destination {
        return 0;
    }
    let mut sum: u128 = 0;
    for link in sheet.flowing_out(node) {
        let fraction = u128::from(sheet.links[link].fraction);
        sum += fraction * u128::from(cost(sheet, link, far(link)));
    }
    u64::try_from(sum / WHOLE).expect("a mean of delays")
}

/// Whether a link is improper, its node having this delay.
fn improper(sheet: &Sheet, link: usize, own: u64, far: Message) -> bool {
    let record = sheet.links[link];
    if !record.flows() || own > far.delay {
        return false;
    }
    let rise = cost(sheet, link, far) - own;
    let carried = u128::from(record.fraction) * u128::from(sheet.traffic[record.from]);
    carried >= u128::from(sheet.step) * u128::from(rise)
}

/// Whether a node is blocked. Only far ends of flowing links are asked for.
pub fn blocked(sheet: &Sheet, node: usize, far: &mut dyn FnMut(usize) -> Message) -> bool {
    if node == sheet.destination {
        return false;
    }
    let own = delay(sheet, node, far);
    for link in sheet.flowing_out(node) {
        let word = far(link);
        if word.blocked || improper(sheet, link, own, word) {
            return true;
        }
    }
    false
}

/// A candidate of a node: its link, and its c.
struct Candidate {
    link: usize,
    cost: u64,
}

fn candidates(
    sheet: &Sheet,
    node: usize,
    far: &mut dyn FnMut(usize) -> Message,
) -> Vec<Candidate> {
    let mut found = Vec::new();
    for link in sheet.links_out(node) {
        let word = far(link);
        if sheet.links[link].flows() || !word.blocked {
            found.push(Candidate { link, cost: cost(sheet, link, word) });
        }
    }
    found
}

/// What is cut from a candidate that is not the best, by its excess over the best's c.
fn cut(sheet: &Sheet, link: usize, excess: u64) -> u32 {
    let record = sheet.links[link];
    let traffic = u128::from(sheet.traffic[record.from]);
    if traffic == 0 {
        return record.fraction;
    }
    let allowed = u128::from(sheet.step) * u128::from(excess) / traffic;
    allowed.min(u128::from(record.fraction)) as u32
}

/// The new fractions out of a node, in the order of its links.
pub fn new_row(sheet: &Sheet, node: usize, far: &mut dyn FnMut(usize) -> Message) -> Vec<u32> {
    let mut row: Vec<(usize, u32)> =
        sheet.links_out(node).map(|link| (link, sheet.links[link].fraction)).collect();
    let candidates = if node == sheet.destination {
        Vec::new()
    } else {
        candidates(sheet, node, far)
    };
    let by_cost_then_far_node = |one: &&Candidate| (one.cost, sheet.links[one.link].to);
    if let Some(best) = candidates.iter().min_by_key(by_cost_then_far_node) {
        for other in candidates.iter().filter(|other| other.link != best.link) {
            let moved = cut(sheet, other.link, other.cost - best.cost);
            *fraction_of(&mut row, other.link) -= moved;
            *fraction_of(&mut row, best.link) += moved;
        }
    }
    row.into_iter().map(|(_, fraction)| fraction).collect()
}

fn fraction_of(row: &mut [(usize, u32)], link: usize) -> &mut u32 {
    &mut row.iter_mut().find(|entry| entry.0 == link).expect("a link of this row").1
}

#[cfg(test)]
mod tests {
    use super::*;

    #[test]
    fn marginal_delays_of_document_01() {
        let shown = [(0, 16), (128, 64), (192, 256), (224, 1_024), (240, 4_096), (255, 1_048_576)];
        for (load_step, delay) in shown {
            assert_eq!(marginal_delay(load_step), delay);
        }
    }
}
