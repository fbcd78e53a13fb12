//! The second implementation, written from document 01 alone.
//!
//! It is made to be read beside the paper, and its methods are its own: loops are found by
//! search, the round as a calculation is a recursion that remembers, and the round as messages
//! really passes them. Numbers are wide enough that no bound has to be argued.

mod calculation;
mod messages;
mod rules;
mod sheet;

pub use calculation::Calculation;
pub use messages::{deliver, new_row, Message, State, Status, Tally};
pub use rules::marginal_delay;
pub use sheet::{Link, Sheet};

use crate::refusal::{
    refuse, Answer, Refusal, LIST_ENDS, NOT_WAITING, NO_SUCH_LINK, OUTPUT_SHORT,
};

/// Check: answers the number of links.
pub fn check(sheet: &[u8]) -> Answer {
    Ok(Sheet::read(sheet)?.links.len())
}

/// Next: the round as a calculation.
pub fn next(sheet: &[u8], out: &mut [u8]) -> Answer {
    let content = Sheet::read(sheet)?;
    room_for(sheet.len(), out.len())?;
    let mut calculation = Calculation::new(&content);
    let rows = (0..content.nodes).map(|node| calculation.new_row(node)).collect();
    Ok(write_round(&content, rows, out))
}

/// Play: the round as messages, all of them.
pub fn play(sheet: &[u8], order: &[u16], out: &mut [u8]) -> Answer {
    let content = Sheet::read(sheet)?;
    room_for(sheet.len(), out.len())?;
    let state = delivered_in(&content, order)?;
    if state.tally().deliveries < content.links.len() {
        return refuse(LIST_ENDS, order.len());
    }
    let row = |node| new_row(&content, &state, node).expect("every message was delivered");
    let rows = (0..content.nodes).map(row).collect();
    Ok(write_round(&content, rows, out))
}

/// Frame: the round as messages, stopped where the list stops.
pub fn frame(sheet: &[u8], order: &[u16], out: &mut [u8]) -> Answer {
    let content = Sheet::read(sheet)?;
    let needed = 6 * content.nodes;
    room_for(needed, out.len())?;
    let state = delivered_in(&content, order)?;
    for (node, place) in out[..needed].chunks_exact_mut(6).enumerate() {
        place.copy_from_slice(&frame_of(&content, &state, node));
    }
    Ok(needed)
}

/// House order: each time the lowest link that waits, until none does.
pub fn house(sheet: &[u8], out: &mut [u16]) -> Answer {
    let content = Sheet::read(sheet)?;
    let needed = content.links.len();
    room_for(needed, out.len())?;
    let mut state = State::new(&content);
    let mut made = 0;
    while let Some(link) = state.lowest_waiting(&content) {
        assert!(deliver(&content, &mut state, link), "a waiting message is delivered");
        out[made] = link as u16;
        made += 1;
    }
    assert_eq!(made, needed, "a sheet without loops never stalls");
    Ok(needed)
}

fn room_for(needed: usize, room: usize) -> Result<(), Refusal> {
    if room < needed {
        return refuse(OUTPUT_SHORT, needed);
    }
    Ok(())
}

/// Delivers the list from its first entry, 12 before 10.
fn delivered_in(sheet: &Sheet, order: &[u16]) -> Result<State, Refusal> {
    let mut state = State::new(sheet);
    for (index, &entry) in order.iter().enumerate() {
        let link = entry as usize;
        if link >= sheet.links.len() {
            return refuse(NO_SUCH_LINK, index);
        }
        if !deliver(sheet, &mut state, link) {
            return refuse(NOT_WAITING, index);
        }
    }
    Ok(state)
}

/// Writes the sheet anew from its content, with these rows of fractions for the old ones.
fn write_round(sheet: &Sheet, rows: Vec<Vec<u32>>, out: &mut [u8]) -> usize {
    let mut next = sheet.clone();
    let fractions = rows.into_iter().flatten();
    for (link, fraction) in next.links.iter_mut().zip(fractions) {
        link.fraction = fraction;
    }
    let bytes = next.write();
    out[..bytes.len()].copy_from_slice(&bytes);
    bytes.len()
}

/// Status, mark and delay of one node; the last five bytes are 0 while the status is 0.
fn frame_of(sheet: &Sheet, state: &State, node: usize) -> [u8; 6] {
    let status = state.status(sheet, node);
    match state.word_of(sheet, node) {
        None => [status.number(), 0, 0, 0, 0, 0],
        Some(word) => {
            let delay = u32::try_from(word.delay).expect("a delay fits four bytes").to_be_bytes();
            let blocked = word.blocked as u8;
            [status.number(), blocked, delay[0], delay[1], delay[2], delay[3]]
        }
    }
}
