//! Lists of deliveries: judging one, and making the house order. Only who has heard whom is
//! kept, as one word a node.

use super::accept::{link, of, of_mut, Net, Record};
use crate::refusal::{refuse, Refusal, NOT_WAITING, NO_SUCH_LINK};
use std::ops::Range;

/// The nodes each node has heard after all deliveries of a list.
#[inline(never)]
pub fn heard_after(sheet: &[u8], net: &Net, order: &[u16]) -> Result<[u64; 64], Refusal> {
    let mut heard = [0u64; 64];
    let records = net.records(sheet);
    for (index, &number) in order.iter().enumerate() {
        let Some(link) = records.get(number as usize) else {
            return refuse(NO_SUCH_LINK, index);
        };
        let (from, to) = (link.from(), link.to);
        // SAFETY: the link is one of an accepted sheet.
        unsafe {
            // A flowing link wants all neighbours heard, another one only the flowing ones.
            let row = net.row(from);
            let wanted = if link.flows() { row.near } else { row.flow };
            let missing = wanted & !of(&heard, from);
            let heard_by = of_mut(&mut heard, to);
            if missing | (*heard_by >> from & 1) != 0 {
                return refuse(NOT_WAITING, index);
            }
            *heard_by |= 1 << from;
        }
    }
    Ok(heard)
}

/// The set of waiting links and that of flowing ones, a bit a link. One word more than 512 links
/// need, so that a row's bits can always be put in as two words.
struct Waiting {
    links: [u64; 9],
    flowing: [u64; 9],
}

impl Waiting {
    /// Puts in the links of a row that flow, those that don't, or both; answers the lower word.
    #[inline(always)]
    fn open(&mut self, row: Range<u16>, dry: bool, flowing: bool) -> usize {
        let bits = (1u64 << (row.end - row.start)) - 1;
        let (word, shift) = (row.start as usize >> 6 & 7, row.start & 63);
        let (dry, flowing) = ((dry as u64).wrapping_neg(), (flowing as u64).wrapping_neg());
        let chosen = |bits: u64, flows: u64| bits & (flows & flowing | !flows & dry);
        self.links[word] |= chosen(bits << shift, self.flowing[word]);
        self.links[word + 1] |= chosen(bits >> 1 >> (63 - shift), self.flowing[word + 1]);
        word
    }
}

/// The set of flowing links. Eight at a time, so that all shifts are known beforehand.
#[inline(always)]
fn flowing_set(records: &[Record]) -> [u64; 9] {
    let mut set = [0u64; 9];
    let (groups, last) = records.as_chunks::<8>();
    for (group, links) in groups.iter().enumerate() {
        set[group >> 3 & 7] |= flowing_bits(links) << (8 * (group & 7));
    }
    set[groups.len() >> 3] |= flowing_bits(last) << (8 * (groups.len() & 7));
    set
}

#[inline(always)]
fn flowing_bits(links: &[Record]) -> u64 {
    let bit = |(place, link): (usize, &Record)| (link.flows() as u64) << place;
    links.iter().enumerate().map(bit).fold(0, |bits, bit| bits | bit)
}

/// Writes the house order; `out` has a place for every link.
#[inline(never)]
pub fn house_order(sheet: &[u8], net: &Net, out: &mut [u16]) {
    let records = net.records(sheet);
    let mut waiting = Waiting { links: [0; 9], flowing: flowing_set(records) };
    // For each node, the neighbours it has yet to hear, and those of them it flows to.
    let (mut unheard, mut unheard_flow) = ([0u64; 64], [0u64; 64]);
    for (node, row) in net.rows().iter().enumerate() {
        unheard[node & 63] = row.near;
        unheard_flow[node & 63] = row.flow;
    }
    // SAFETY: here and below, links and nodes are those of the accepted sheet.
    let at_destination = unsafe { net.links_of(net.destination as u8) };
    let mut word = waiting.open(at_destination, true, false);
    // The lowest word with a bit is held apart from the set while bits are taken from it.
    let mut current = waiting.links[word];
    for place in out {
        while current == 0 {
            waiting.links[word & 7] = 0;
            word += 1;
            current = waiting.links[word & 7];
        }
        let number = (word << 6) as u16 | current.trailing_zeros() as u16;
        current &= current - 1;
        *place = number;
        let link = unsafe { link(records, number) };
        let bit = 1u64 << (link.from() & 63);
        let (all, flow) =
            unsafe { (of_mut(&mut unheard, link.to), of_mut(&mut unheard_flow, link.to)) };
        let ready = *flow == bit;
        *all &= !bit;
        *flow &= !bit;
        let finished = *all == 0;
        if ready | finished {
            waiting.links[word & 7] = current;
            let opened = unsafe { net.links_of(link.to) };
            word = word.min(waiting.open(opened, ready, finished));
            current = waiting.links[word & 7];
        }
    }
}
