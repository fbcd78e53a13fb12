//! The exact judgement of a sheet that is not right; not on the timed path.

use crate::refusal::{
    Refusal, AFTER_END, CUT_SHORT, FIELD, KIND, LINK_ORDER, LOOP, NO_OPPOSITE, ROW_SUM,
};

fn be32(bytes: &[u8]) -> u32 {
    u32::from_be_bytes([bytes[0], bytes[1], bytes[2], bytes[3]])
}

/// Why a sheet that the fast path does not accept is refused.
#[cold]
#[inline(never)]
pub fn refusal(sheet: &[u8]) -> Refusal {
    let (number, place) = judge(sheet);
    Refusal { number, place }
}

fn judge(sheet: &[u8]) -> (u32, usize) {
    let length = sheet.len();
    if length == 0 {
        return (CUT_SHORT, 0);
    }
    if sheet[0] != 1 {
        return (KIND, 0);
    }
    if length < 7 {
        return (CUT_SHORT, 0);
    }
    let (nodes, destination, step) = (sheet[1] as usize, sheet[2] as usize, be32(&sheet[3..7]));
    if !(2..=64).contains(&nodes) || destination >= nodes || step == 0 || step > 1_048_576 {
        return (FIELD, 0);
    }
    let mut at = 7;
    for node in 0..nodes {
        if at >= length {
            return (CUT_SHORT, at);
        }
        if sheet[at] != 2 {
            return (KIND, at);
        }
        if length - at < 6 {
            return (CUT_SHORT, at);
        }
        if sheet[at + 1] as usize != node {
            return (FIELD, at);
        }
        at += 6;
    }
    judge_links(sheet, at, nodes, destination)
}

fn judge_links(sheet: &[u8], first: usize, nodes: usize, destination: usize) -> (u32, usize) {
    let (mut near, mut flow, mut sum) = ([0u64; 64], [0u64; 64], [0u64; 64]);
    let (mut at, mut last) = (first, -1);
    let links = loop {
        let links = (at - first) / 8;
        match sheet.get(at) {
            None => return (CUT_SHORT, at),
            Some(9) => break links,
            Some(3) => {}
            Some(_) => return (KIND, at),
        }
        if sheet.len() - at < 8 {
            return (CUT_SHORT, at);
        }
        let (from, to, fraction) =
            (sheet[at + 1] as usize, sheet[at + 2] as usize, be32(&sheet[at + 4..at + 8]));
        if from >= nodes || to >= nodes || from == to || fraction > 65_536 {
            return (FIELD, at);
        }
        let key = (from << 8 | to) as i32;
        if key <= last || links == 512 {
            return (LINK_ORDER, at);
        }
        last = key;
        near[from] |= 1 << to;
        flow[from] |= ((fraction != 0) as u64) << to;
        sum[from] += u64::from(fraction);
        at += 8;
    };
    if at + 1 < sheet.len() {
        return (AFTER_END, at + 1);
    }
    let alone = |&link: &usize| {
        let record = first + 8 * link;
        near[sheet[record + 2] as usize] >> sheet[record + 1] & 1 == 0
    };
    if let Some(link) = (0..links).find(alone) {
        return (NO_OPPOSITE, link);
    }
    let due = |node: usize| if node == destination { 0 } else { 65_536 };
    if let Some(node) = (0..nodes).find(|&node| sum[node] != due(node)) {
        return (ROW_SUM, node);
    }
    (LOOP, lowest_on_a_loop(flow, nodes))
}

/// Closes the flow under going on, by Warshall's way, a row at a time.
fn lowest_on_a_loop(mut reach: [u64; 64], nodes: usize) -> usize {
    for through in 0..nodes {
        let onwards = reach[through];
        for row in &mut reach[..nodes] {
            if *row >> through & 1 == 1 {
                *row |= onwards;
            }
        }
    }
    let on_loop = |&node: &usize| reach[node] >> node & 1 == 1;
    (0..nodes).find(on_loop).expect("nothing else can be wrong with the sheet")
}
