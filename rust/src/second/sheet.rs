//! The sheet: reading it with every refusal of document 01, and writing it.

use crate::refusal::{
    refuse, Refusal, AFTER_END, CUT_SHORT, FIELD, KIND, LINK_ORDER, LOOP, NO_OPPOSITE, ROW_SUM,
};

const HEAD: u8 = 1;
const NODE: u8 = 2;
const LINK: u8 = 3;
const END: u8 = 9;

const MOST_NODES: usize = 64;
const MOST_LINKS: usize = 512;
const LARGEST_STEP: u32 = 1_048_576;
const WHOLE: u32 = 65_536;

#[derive(Clone, Copy, PartialEq, Eq, Debug)]
pub struct Link {
    pub from: usize,
    pub to: usize,
    pub load_step: u8,
    pub fraction: u32,
}

impl Link {
    pub fn flows(&self) -> bool {
        self.fraction > 0
    }
}

/// The content of an accepted sheet.
#[derive(Clone, PartialEq, Eq, Debug)]
pub struct Sheet {
    pub nodes: usize,
    pub destination: usize,
    pub step: u32,
    pub traffic: Vec<u32>,
    pub links: Vec<Link>,
    /// Numbers of the links out of each node.
    out: Vec<Vec<usize>>,
    /// Number of the opposite of each link.
    opposite: Vec<usize>,
}

impl Sheet {
    /// Judges the records left to right, then the conditions 6, 7 and 8 in this order.
    pub fn read(bytes: &[u8]) -> Result<Sheet, Refusal> {
        let mut sheet = read_records(bytes)?;
        sheet.find_opposites()?;
        sheet.judge_sums()?;
        sheet.judge_loops()?;
        Ok(sheet)
    }

    /// The one sheet that has this content.
    pub fn write(&self) -> Vec<u8> {
        let mut bytes = vec![HEAD, self.nodes as u8, self.destination as u8];
        bytes.extend(self.step.to_be_bytes());
        for (node, traffic) in self.traffic.iter().enumerate() {
            bytes.extend([NODE, node as u8]);
            bytes.extend(traffic.to_be_bytes());
        }
        for link in &self.links {
            bytes.extend([LINK, link.from as u8, link.to as u8, link.load_step]);
            bytes.extend(link.fraction.to_be_bytes());
        }
        bytes.push(END);
        bytes
    }

    /// The links out of a node, by number, in rising order.
    pub fn links_out(&self, node: usize) -> impl Iterator<Item = usize> + '_ {
        self.out[node].iter().copied()
    }

    pub fn flowing_out(&self, node: usize) -> impl Iterator<Item = usize> + '_ {
        self.links_out(node).filter(|&link| self.links[link].flows())
    }

    pub fn opposite(&self, link: usize) -> usize {
        self.opposite[link]
    }

    /// Number of the link between two nodes, if there is one.
    pub fn link_between(&self, from: usize, to: usize) -> Option<usize> {
        self.links.binary_search_by_key(&(from, to), |link| (link.from, link.to)).ok()
    }

    fn find_opposites(&mut self) -> Result<(), Refusal> {
        for (number, link) in self.links.iter().enumerate() {
            match self.link_between(link.to, link.from) {
                Some(opposite) => self.opposite.push(opposite),
                None => return refuse(NO_OPPOSITE, number),
            }
        }
        Ok(())
    }

    fn judge_sums(&self) -> Result<(), Refusal> {
        for node in 0..self.nodes {
            let due = if node == self.destination { 0 } else { WHOLE };
            let sum: u32 = self.links_out(node).map(|link| self.links[link].fraction).sum();
            if sum != due {
                return refuse(ROW_SUM, node);
            }
        }
        Ok(())
    }

    fn judge_loops(&self) -> Result<(), Refusal> {
        match (0..self.nodes).find(|&node| self.leads_back(node)) {
            Some(node) => refuse(LOOP, node),
            None => Ok(()),
        }
    }

    /// Searches along flowing links, depth first, for a way from the node back to it.
    fn leads_back(&self, start: usize) -> bool {
        let mut reached = vec![false; self.nodes];
        let mut open = vec![start];
        while let Some(node) = open.pop() {
            for link in self.flowing_out(node) {
                let far = self.links[link].to;
                if far == start {
                    return true;
                }
                if !reached[far] {
                    reached[far] = true;
                    open.push(far);
                }
            }
        }
        false
    }
}

/// A place in the bytes, always at the start of a record.
struct Reader<'a> {
    bytes: &'a [u8],
    at: usize,
}

impl<'a> Reader<'a> {
    /// The kind of the record due here, which must be one of those that may stand here.
    fn kind(&self, allowed: &[u8]) -> Result<u8, Refusal> {
        match self.bytes.get(self.at) {
            None => refuse(CUT_SHORT, self.at),
            Some(kind) if !allowed.contains(kind) => refuse(KIND, self.at),
            Some(kind) => Ok(*kind),
        }
    }

    /// The body of the record here, together with the record's offset; steps over both.
    fn body(&mut self, length: usize) -> Result<(&'a [u8], usize), Refusal> {
        let offset = self.at;
        match self.bytes[offset + 1..].get(..length) {
            None => refuse(CUT_SHORT, offset),
            Some(body) => {
                self.at += 1 + length;
                Ok((body, offset))
            }
        }
    }
}

fn number(bytes: &[u8]) -> u32 {
    bytes.iter().fold(0, |high, &low| high << 8 | u32::from(low))
}

fn read_records(bytes: &[u8]) -> Result<Sheet, Refusal> {
    let mut reader = Reader { bytes, at: 0 };
    let mut sheet = read_head(&mut reader)?;
    for node in 0..sheet.nodes {
        sheet.traffic.push(read_node(&mut reader, node)?);
    }
    while reader.kind(&[LINK, END])? == LINK {
        let link = read_link(&mut reader, &sheet)?;
        sheet.out[link.from].push(sheet.links.len());
        sheet.links.push(link);
    }
    let (_, end) = reader.body(0)?;
    if bytes.len() > end + 1 {
        return refuse(AFTER_END, end + 1);
    }
    Ok(sheet)
}

/// A sheet with nothing but its head.
fn read_head(reader: &mut Reader) -> Result<Sheet, Refusal> {
    reader.kind(&[HEAD])?;
    let (body, offset) = reader.body(6)?;
    let (nodes, destination) = (body[0] as usize, body[1] as usize);
    let step = number(&body[2..6]);
    let fields_right =
        (2..=MOST_NODES).contains(&nodes) && destination < nodes && (1..=LARGEST_STEP).contains(&step);
    if !fields_right {
        return refuse(FIELD, offset);
    }
    Ok(Sheet {
        nodes,
        destination,
        step,
        traffic: Vec::new(),
        links: Vec::new(),
        out: vec![Vec::new(); nodes],
        opposite: Vec::new(),
    })
}

/// The traffic in the node record that is due.
fn read_node(reader: &mut Reader, due: usize) -> Result<u32, Refusal> {
    reader.kind(&[NODE])?;
    let (body, offset) = reader.body(5)?;
    if body[0] as usize != due {
        return refuse(FIELD, offset);
    }
    Ok(number(&body[1..5]))
}

/// One link: its fields are judged before its order and count.
fn read_link(reader: &mut Reader, sheet: &Sheet) -> Result<Link, Refusal> {
    let (body, offset) = reader.body(7)?;
    let link = Link {
        from: body[0] as usize,
        to: body[1] as usize,
        load_step: body[2],
        fraction: number(&body[3..7]),
    };
    let ends_right = link.from < sheet.nodes && link.to < sheet.nodes && link.from != link.to;
    if !ends_right || link.fraction > WHOLE {
        return refuse(FIELD, offset);
    }
    let rises = match sheet.links.last() {
        Some(last) => (last.from, last.to) < (link.from, link.to),
        None => true,
    };
    if !rises || sheet.links.len() == MOST_LINKS {
        return refuse(LINK_ORDER, offset);
    }
    Ok(link)
}
