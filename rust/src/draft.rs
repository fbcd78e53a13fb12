//! A draft of a sheet: content that may be right or wrong, and its bytes.

#[derive(Clone, Copy, PartialEq, Eq, Debug)]
pub struct DraftLink {
    pub from: u8,
    pub to: u8,
    pub load_step: u8,
    pub fraction: u32,
}

#[derive(Clone, PartialEq, Eq, Debug)]
pub struct Draft {
    pub nodes: u8,
    pub destination: u8,
    pub step: u32,
    /// Number and traffic of each node record, in the order of the records.
    pub traffic: Vec<(u8, u32)>,
    pub links: Vec<DraftLink>,
}

pub const HEAD_BYTES: usize = 7;
pub const NODE_BYTES: usize = 6;
pub const LINK_BYTES: usize = 8;

impl Draft {
    pub fn write(&self) -> Vec<u8> {
        let mut bytes = Vec::with_capacity(self.end() + 1);
        bytes.extend_from_slice(&[1, self.nodes, self.destination]);
        bytes.extend_from_slice(&self.step.to_be_bytes());
        for (node, traffic) in &self.traffic {
            bytes.extend_from_slice(&[2, *node]);
            bytes.extend_from_slice(&traffic.to_be_bytes());
        }
        for link in &self.links {
            bytes.extend_from_slice(&[3, link.from, link.to, link.load_step]);
            bytes.extend_from_slice(&link.fraction.to_be_bytes());
        }
        bytes.push(9);
        bytes
    }

    /// Offset of the end record.
    pub fn end(&self) -> usize {
        HEAD_BYTES + NODE_BYTES * self.traffic.len() + LINK_BYTES * self.links.len()
    }

    /// Offsets of all records.
    pub fn record_offsets(&self) -> Vec<usize> {
        let links_at = HEAD_BYTES + NODE_BYTES * self.traffic.len();
        let mut offsets = vec![0];
        offsets.extend((0..self.traffic.len()).map(|node| HEAD_BYTES + NODE_BYTES * node));
        offsets.extend((0..=self.links.len()).map(|link| links_at + LINK_BYTES * link));
        offsets
    }

    /// The link between two nodes, which is there.
    pub fn link(&mut self, from: u8, to: u8) -> &mut DraftLink {
        let found = self.links.iter_mut().find(|link| link.from == from && link.to == to);
        found.expect("the draft has this link")
    }

    pub fn remove(&mut self, from: u8, to: u8) {
        self.links.retain(|link| link.from != from || link.to != to);
    }

    pub fn sort(&mut self) {
        self.links.sort_by_key(|link| (link.from, link.to));
    }
}
