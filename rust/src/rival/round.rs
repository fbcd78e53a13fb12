//! The round's figures: delays and marks along the ranks, then the new rows.

use super::accept::{link, of, of_mut, Net, Ranks, Record};
use std::mem::MaybeUninit;
use std::ops::Range;

/// D' for each load step.
static DELAYS: [u32; 256] = {
    let mut table = [0; 256];
    let mut step = 0;
    while step < 256 {
        let free = 256 - step as u32;
        table[step] = 1_048_576 / (free * free);
        step += 1;
    }
    table
};

/// MD of each node, and the set of blocked ones.
pub struct Words {
    /// First the true delays; then the same, with blocked nodes too far to be the best.
    delays: [[u32; 64]; 2],
    pub blocked: u64,
}

impl Words {
    #[inline(always)]
    pub fn delay(&self) -> &[u32; 64] {
        &self.delays[0]
    }
}

/// Above every cost there is, also with a D' added.
const FAR_TOO_HIGH: u32 = 1 << 30;

/// c of a link, by these delays of the far nodes.
#[inline(always)]
fn cost(link: &Record, delay: &[u32; 64]) -> u32 {
    // SAFETY: the link is one of an accepted sheet.
    DELAYS[link.load_step as usize] + unsafe { of(delay, link.to) }
}

#[inline(always)]
fn traffic_of(sheet: &[u8], node: usize) -> u32 {
    let place = 7 + 6 * node + 2;
    u32::from_be_bytes([sheet[place], sheet[place + 1], sheet[place + 2], sheet[place + 3]])
}

#[inline(never)]
pub fn words(sheet: &[u8], net: &Net, ranks: &Ranks) -> Words {
    let records = net.records(sheet);
    let mut words = Words { delays: [[0; 64]; 2], blocked: 0 };
    // The first of all is the destination: every other node flows to some node.
    for &node in &ranks[1..net.nodes] {
        // SAFETY: ranks has the nodes of the accepted sheet, and the list its links.
        let row = unsafe { net.row(node) };
        let (mut sum, mut highest) = (0u64, 0u32);
        for &number in unsafe { net.flowing_of(node) } {
            let link = unsafe { link(records, number) };
            let far = unsafe { of(words.delay(), link.to) };
            sum += u64::from(link.fraction()) * u64::from(DELAYS[link.load_step as usize] + far);
            highest = highest.max(far);
        }
        let own = (sum >> 16) as u32;
        let mut blocked = row.flow & words.blocked != 0;
        if own <= highest && !blocked {
            blocked = has_improper(sheet, net, node, own, &words);
        }
        words.delays[0][node as usize & 63] = own;
        words.delays[1][node as usize & 63] = if blocked { FAR_TOO_HIGH } else { own };
        words.blocked |= (blocked as u64) << node;
    }
    words
}

#[inline(always)]
fn has_improper(sheet: &[u8], net: &Net, node: u8, own: u32, words: &Words) -> bool {
    let traffic = u64::from(traffic_of(sheet, node as usize));
    let records = net.records(sheet);
    let mut found = false;
    // SAFETY: node and links are those of the accepted sheet.
    for &number in unsafe { net.flowing_of(node) } {
        let link = unsafe { link(records, number) };
        let far = unsafe { of(words.delay(), link.to) };
        // Below zero only where the far delay is lower, and then it does not matter.
        let rise = u64::from(cost(link, words.delay()).wrapping_sub(own));
        let heavy = u64::from(link.fraction()) * traffic >= u64::from(net.step) * rise;
        found |= (own <= far) & heavy;
    }
    found
}

/// Writes the sheet with its new rows; `out` has the sheet's length. A link that does not flow
/// changes only where it is the best, so all others keep the bytes that were copied.
#[inline(never)]
pub fn write_rows(sheet: &[u8], net: &Net, words: &Words, out: &mut [u8]) {
    out.copy_from_slice(sheet);
    let records = net.records(sheet);
    let mut bests = [MaybeUninit::<Best>::uninit(); 64];
    let nodes = sheet[7..net.first].chunks_exact(6);
    for (node, (best, record)) in bests.iter_mut().zip(nodes).enumerate() {
        // SAFETY: the node is one of the accepted sheet.
        let row = unsafe { net.links_of(node as u8) };
        let traffic = u32::from_be_bytes([record[2], record[3], record[4], record[5]]);
        let rank = best_of(records, row, &words.delays[1]);
        best.write(Best { rank, traffic: f64::from(traffic), kept: 0 });
    }
    if words.blocked != 0 {
        better_by_flowing(records, net, words, &mut bests);
    }
    let links_out = &mut out[net.first..];
    cut_flowing(records, net, words, &mut bests, links_out);
    for (node, best) in bests[..net.nodes].iter().enumerate() {
        if node != net.destination {
            // The best has whatever the others do not keep.
            // SAFETY: it was written above, and its rank ends in a link's number.
            unsafe {
                let best = best.assume_init_ref();
                put(links_out, best.number(), 65_536 - best.kept);
            }
        }
    }
}

/// The best candidate of a node, the node's traffic, and what its other links keep.
#[derive(Clone, Copy)]
struct Best {
    /// Cost, then the link's number (16 bits): in a row the lower number is the lower far node.
    rank: u64,
    traffic: f64,
    kept: u32,
}

impl Best {
    #[inline(always)]
    fn number(&self) -> u16 {
        self.rank as u16
    }

    #[inline(always)]
    fn cost(&self) -> u32 {
        (self.rank >> 16) as u32
    }
}

/// Cost first, then the number.
#[inline(always)]
fn rank_of(link: &Record, number: u16, delay: &[u32; 64]) -> u64 {
    u64::from(cost(link, delay)) << 16 | u64::from(number)
}

/// The rank of a row's best, by these delays.
#[inline(always)]
fn best_of(records: &[Record], row: Range<u16>, delay: &[u32; 64]) -> u64 {
    let mut best = u64::MAX;
    for number in row {
        // SAFETY: a row has only links of the accepted sheet.
        best = best.min(rank_of(unsafe { link(records, number) }, number, delay));
    }
    best
}

/// A flowing link is a candidate though its far node is blocked: all are ranked again, by the
/// true delays.
#[inline(always)]
fn better_by_flowing(
    records: &[Record],
    net: &Net,
    words: &Words,
    bests: &mut [MaybeUninit<Best>; 64],
) {
    for &number in net.all_flowing() {
        // SAFETY: the link is one of an accepted sheet, and all its nodes have a best.
        let link = unsafe { link(records, number) };
        let best = unsafe { of_mut(bests, link.from()).assume_init_mut() };
        best.rank = best.rank.min(rank_of(link, number, words.delay()));
    }
}

/// Writes what is left of each flowing link, and adds up for each node how much its links keep,
/// but for the best.
///
/// A quotient below 2^20 is floored right in this format: it lies at least 2^-32 below the next
/// whole number, more than the rounding. Traffic 0 gives no number or no end: all is cut.
#[inline(always)]
fn cut_flowing(
    records: &[Record],
    net: &Net,
    words: &Words,
    bests: &mut [MaybeUninit<Best>; 64],
    links_out: &mut [u8],
) {
    let step = f64::from(net.step);
    for &number in net.all_flowing() {
        // SAFETY: the link is one of an accepted sheet, and all its nodes have their best.
        let link = unsafe { link(records, number) };
        let best = unsafe { of_mut(bests, link.from()).assume_init_mut() };
        let excess = cost(link, words.delay()) as i32 - best.cost() as i32;
        let allowed = step * f64::from(excess) / best.traffic;
        let most = f64::from(link.fraction() as i32);
        let cut = if allowed < most { allowed } else { most };
        // SAFETY: the cut is between 0 and 65,536, and the number is a link's.
        unsafe {
            let rest = link.fraction() - cut.to_int_unchecked::<i32>() as u32;
            best.kept += if number == best.number() { 0 } else { rest };
            put(links_out, number, rest);
        }
    }
}

/// Writes a link's fraction.
///
/// # Safety
/// `links_out` must hold a link of this number.
#[inline(always)]
unsafe fn put(links_out: &mut [u8], number: u16, fraction: u32) {
    let offset = 8 * number as usize + 4;
    debug_assert!(offset + 4 <= links_out.len());
    links_out.as_mut_ptr().add(offset).cast::<[u8; 4]>().write(fraction.to_be_bytes());
}
