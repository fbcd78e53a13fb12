//! The fast path: is this sheet right? One pass over the links, then loops by peeling.

use std::hint::select_unpredictable;
use std::mem::MaybeUninit;

const HEAD_BYTES: usize = 7;
const NODE_BYTES: usize = 6;
const LINK_BYTES: usize = 8;
const WHOLE: u32 = 65_536;

/// A link as it lies in the sheet.
#[derive(Clone, Copy)]
#[repr(C)]
pub struct Record {
    /// Kind and `from`.
    tag: [u8; 2],
    pub to: u8,
    pub load_step: u8,
    fraction: [u8; 4],
}

impl Record {
    #[inline(always)]
    pub fn fraction(&self) -> u32 {
        u32::from_be_bytes(self.fraction)
    }

    #[inline(always)]
    pub fn flows(&self) -> bool {
        u32::from_ne_bytes(self.fraction) != 0
    }

    #[inline(always)]
    pub fn from(&self) -> u8 {
        self.tag[1]
    }
}

/// An entry of an array with a place for every node.
///
/// # Safety
/// The node must be below 64, as all nodes of an accepted sheet are.
#[inline(always)]
pub unsafe fn of<T: Copy>(array: &[T; 64], node: u8) -> T {
    *array.get_unchecked(node as usize)
}

/// As [`of`], to be changed.
///
/// # Safety
/// The same as for [`of`].
#[inline(always)]
pub unsafe fn of_mut<T>(array: &mut [T; 64], node: u8) -> &mut T {
    array.get_unchecked_mut(node as usize)
}

/// What the pass leaves of a sheet. Sets of nodes are words with a bit a node.
pub struct Net {
    pub nodes: usize,
    pub destination: usize,
    pub step: u32,
    pub links: usize,
    /// Offset of the first link.
    pub first: usize,
    /// An empty row, then what is kept of each node, written as far as there are nodes.
    rows: [MaybeUninit<Row>; 65],
    /// Numbers of the flowing links, written as far as there are any.
    flowing: [MaybeUninit<u16>; 512],
}

/// What is kept of a node of an accepted sheet.
#[derive(Clone, Copy)]
pub struct Row {
    /// Its neighbours.
    pub near: u64,
    /// The far nodes of its flowing links.
    pub flow: u64,
    /// One more than the number of its last link; its first is where the row before it ends.
    end: u16,
    /// The same for the list of flowing links.
    flow_end: u16,
}

impl Net {
    /// A function and no constant, since a constant would be copied, unwritten places and all.
    #[inline(always)]
    pub fn new() -> Net {
        Net {
            nodes: 0,
            destination: 0,
            step: 0,
            links: 0,
            first: 0,
            rows: [MaybeUninit::uninit(); 65],
            flowing: [MaybeUninit::uninit(); 512],
        }
    }

    /// The links of the sheet this was made from.
    #[inline(always)]
    pub fn records<'a>(&self, sheet: &'a [u8]) -> &'a [Record] {
        debug_assert!(self.first + LINK_BYTES * self.links <= sheet.len());
        // SAFETY: the number of links was worked out from the sheet's length, and a record is
        // eight bytes that lie anywhere.
        unsafe {
            std::slice::from_raw_parts(sheet.as_ptr().add(self.first).cast(), self.links)
        }
    }

    /// The rows of all nodes.
    #[inline(always)]
    pub fn rows(&self) -> &[Row] {
        let first = self.rows.as_ptr().cast::<Row>();
        // SAFETY: there are at most 64 nodes, and the pass has written all their rows.
        unsafe { std::slice::from_raw_parts(first.add(1), self.nodes) }
    }

    /// The row of a node, and the row before it.
    ///
    /// # Safety
    /// The node must be one of the accepted sheet.
    #[inline(always)]
    unsafe fn row_and_before(&self, node: u8) -> (&Row, &Row) {
        let place = node as usize;
        (
            self.rows.get_unchecked(place + 1).assume_init_ref(),
            self.rows.get_unchecked(place).assume_init_ref(),
        )
    }

    /// The row of a node.
    ///
    /// # Safety
    /// The node must be one of the accepted sheet.
    #[inline(always)]
    pub unsafe fn row(&self, node: u8) -> &Row {
        self.row_and_before(node).0
    }

    /// Numbers of a node's links.
    ///
    /// # Safety
    /// The node must be one of the accepted sheet.
    #[inline(always)]
    pub unsafe fn links_of(&self, node: u8) -> std::ops::Range<u16> {
        let (row, before) = self.row_and_before(node);
        before.end..row.end
    }

    /// Numbers of the flowing links from one place of the list to another.
    #[inline(always)]
    fn listed(&self, start: u16, end: u16) -> &[u16] {
        debug_assert!(start <= end && end <= 512);
        let first = self.flowing.as_ptr().cast::<u16>();
        // SAFETY: rows rise, and the list was written as far as they go.
        unsafe { std::slice::from_raw_parts(first.add(start as usize), (end - start) as usize) }
    }

    /// Numbers of the flowing links of all nodes, if they were listed.
    #[inline(always)]
    pub fn all_flowing(&self) -> &[u16] {
        self.listed(0, self.rows().last().map_or(0, |row| row.flow_end))
    }

    /// Numbers of the flowing links of a node, if they were listed.
    ///
    /// # Safety
    /// The node must be one of the accepted sheet.
    #[inline(always)]
    pub unsafe fn flowing_of(&self, node: u8) -> &[u16] {
        let (row, before) = self.row_and_before(node);
        self.listed(before.flow_end, row.flow_end)
    }
}

/// A link of an accepted sheet.
///
/// # Safety
/// The sheet must have a link of this number.
#[inline(always)]
pub unsafe fn link(records: &[Record], number: u16) -> &Record {
    records.get_unchecked(number as usize)
}

/// The nodes in an order in which every flowing link leads to an earlier node.
pub type Ranks = [u8; 64];

#[inline(always)]
pub fn accepts(sheet: &[u8], net: &mut Net) -> bool {
    head_and_nodes_right(sheet, net) && links_right::<false>(sheet, net) && peel(net).is_some()
}

/// As [`accepts`], and lists the flowing links too.
#[inline(always)]
pub fn accepts_and_ranks(sheet: &[u8], net: &mut Net) -> Option<Ranks> {
    if !head_and_nodes_right(sheet, net) || !links_right::<true>(sheet, net) {
        return None;
    }
    peel(net)
}

/// Head, node records, and a length that is that of a sheet with some number of links.
#[inline(always)]
fn head_and_nodes_right(sheet: &[u8], net: &mut Net) -> bool {
    if sheet.len() < HEAD_BYTES || sheet[0] != 1 {
        return false;
    }
    let (nodes, destination) = (sheet[1] as usize, sheet[2] as usize);
    let step = u32::from_be_bytes([sheet[3], sheet[4], sheet[5], sheet[6]]);
    let first = HEAD_BYTES + NODE_BYTES * nodes;
    if !(2..=64).contains(&nodes) || destination >= nodes || step.wrapping_sub(1) >= 1_048_576 {
        return false;
    }
    if sheet.len() < first + LINK_BYTES + 1 || sheet[sheet.len() - 1] != 9 {
        return false;
    }
    let link_bytes = sheet.len() - first - 1;
    if !link_bytes.is_multiple_of(LINK_BYTES) || link_bytes > 512 * LINK_BYTES {
        return false;
    }
    let mut wrong = 0;
    for (node, record) in sheet[HEAD_BYTES..first].chunks_exact(NODE_BYTES).enumerate() {
        wrong |= u16::from_le_bytes([record[0], record[1]]) ^ (2 | (node as u16) << 8);
    }
    net.nodes = nodes;
    net.destination = destination;
    net.step = step;
    net.first = first;
    net.links = link_bytes / LINK_BYTES;
    wrong == 0
}

/// All links: kinds, ends, order, opposites and sums, row by row.
///
/// A fraction above the whole needs no test of its own, since it makes its row's sum wrong; nor
/// does `from`, since a row begins where its node's links must.
#[inline(never)]
fn links_right<const LIST: bool>(sheet: &[u8], net: &mut Net) -> bool {
    let mut into = [0u64; 64];
    let mut wrong = 0u64;
    // Its sign bit stays while every `to` is above the one before it in the row.
    let mut rising = -1i32;
    let records = net.records(sheet);
    let (mut number, mut flowing) = (0, 0);
    net.rows[0].write(Row { near: 0, flow: 0, end: 0, flow_end: 0 });
    for node in 0..net.nodes {
        let tag = [3, node as u8];
        let node_bit = 1u64 << node;
        let (mut near, mut flow, mut sum) = (0u64, 0u64, 0u64);
        let mut last_to = -1i32;
        while let Some(record) = records.get(number).filter(|record| record.tag == tag) {
            let to = i32::from(record.to);
            rising &= last_to - to;
            last_to = to;
            let bit = 1u64 << (to & 63);
            near |= bit;
            flow |= if record.flows() { bit } else { 0 };
            sum += u64::from(record.fraction());
            into[to as usize & 63] |= node_bit;
            if LIST {
                // A link that does not flow is written over by the next one.
                // SAFETY: there are at most 512 links.
                unsafe { net.flowing.get_unchecked_mut(flowing).write(number as u16) };
                flowing += record.flows() as usize;
            }
            number += 1;
        }
        let due = if node == net.destination { 0 } else { u64::from(WHOLE) };
        wrong |= sum ^ due | near & node_bit | (last_to >= net.nodes as i32) as u64;
        let (end, flow_end) = (number as u16, flowing as u16);
        net.rows[(node & 63) + 1].write(Row { near, flow, end, flow_end });
    }
    for (row, into) in net.rows().iter().zip(&into) {
        wrong |= into ^ row.near;
    }
    number == net.links && rising < 0 && wrong == 0
}

/// Takes away again and again the nodes that flow to none that is left; a loop never goes.
#[inline(never)]
fn peel(net: &Net) -> Option<Ranks> {
    let mut ranks = [0u8; 64];
    let mut count = 0;
    let mut left = u64::MAX >> (64 - net.nodes);
    while left != 0 {
        let before = left;
        let mut round = left;
        while round != 0 {
            let node = round.trailing_zeros() as u8;
            let bit = round & round.wrapping_neg();
            round ^= bit;
            // Chosen, not branched on: the next node waits for this word and nothing else.
            // SAFETY: only nodes of the sheet are left.
            let goes = unsafe { net.row(node) }.flow & left == 0;
            left = select_unpredictable(goes, left ^ bit, left);
            ranks[count & 63] = node;
            count += goes as usize;
        }
        if left == before {
            return None;
        }
    }
    Some(ranks)
}
