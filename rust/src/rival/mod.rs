//! The rival: the five calls as one writes them for release, to time the library against.
//!
//! Sets of nodes are words of 64 bits. A sheet is accepted in one pass that judges only what a
//! right sheet needs ([`accept`]); a sheet that fails there is judged anew, exactly, off the
//! fast path ([`judge`]). No message is simulated: what a node works out from messages is what
//! the calculation gives, so only who has heard whom is kept.

mod accept;
mod judge;
mod list;
mod round;

use crate::refusal::{refuse, Answer, Refusal, LIST_ENDS, OUTPUT_SHORT};
use accept::Net;

/// Check: answers the number of links.
pub fn check(sheet: &[u8]) -> Answer {
    let mut net = Net::new();
    if accept::accepts(sheet, &mut net) {
        return Ok(net.links);
    }
    Err(judge::refusal(sheet))
}

/// Next: two passes over the rows, the first along flowing links.
pub fn next(sheet: &[u8], out: &mut [u8]) -> Answer {
    let mut net = Net::new();
    let order = ranked(sheet, &mut net)?;
    room_for(sheet.len(), out.len())?;
    write_next(sheet, &net, &order, out);
    Ok(sheet.len())
}

/// Play: the list is judged, the result is Next's.
pub fn play(sheet: &[u8], order: &[u16], out: &mut [u8]) -> Answer {
    let mut net = Net::new();
    let ranks = ranked(sheet, &mut net)?;
    room_for(sheet.len(), out.len())?;
    list::heard_after(sheet, &net, order)?;
    if order.len() < net.links {
        return refuse(LIST_ENDS, order.len());
    }
    write_next(sheet, &net, &ranks, out);
    Ok(sheet.len())
}

/// Frame: the list is judged, the figures are the calculation's for those that know them.
pub fn frame(sheet: &[u8], order: &[u16], out: &mut [u8]) -> Answer {
    let mut net = Net::new();
    let ranks = ranked(sheet, &mut net)?;
    let needed = 6 * net.nodes;
    room_for(needed, out.len())?;
    let heard = list::heard_after(sheet, &net, order)?;
    let words = round::words(sheet, &net, &ranks);
    for (node, (place, row)) in out[..needed].chunks_exact_mut(6).zip(net.rows()).enumerate() {
        let unheard = row.near & !heard[node & 63];
        let ready = row.flow & unheard == 0;
        let status = (ready as u8) << ((unheard == 0) as u8);
        let delay = if ready { words.delay()[node & 63] } else { 0 };
        place[0] = status;
        place[1] = (words.blocked >> node) as u8 & ready as u8;
        place[2..].copy_from_slice(&delay.to_be_bytes());
    }
    Ok(needed)
}

/// House order: waiting links are a set of bits, taken from its low end.
pub fn house(sheet: &[u8], out: &mut [u16]) -> Answer {
    let mut net = Net::new();
    if !accept::accepts(sheet, &mut net) {
        return Err(judge::refusal(sheet));
    }
    room_for(net.links, out.len())?;
    list::house_order(sheet, &net, &mut out[..net.links]);
    Ok(net.links)
}

/// Accepts a sheet and ranks its nodes, or says why not.
#[inline(always)]
fn ranked(sheet: &[u8], net: &mut Net) -> Result<accept::Ranks, Refusal> {
    match accept::accepts_and_ranks(sheet, net) {
        Some(ranks) => Ok(ranks),
        None => Err(judge::refusal(sheet)),
    }
}

#[inline(always)]
fn room_for(needed: usize, room: usize) -> Result<(), Refusal> {
    if room < needed {
        return refuse(OUTPUT_SHORT, needed);
    }
    Ok(())
}

#[inline(always)]
fn write_next(sheet: &[u8], net: &Net, ranks: &accept::Ranks, out: &mut [u8]) {
    let words = round::words(sheet, net, ranks);
    round::write_rows(sheet, net, &words, &mut out[..sheet.len()]);
}
