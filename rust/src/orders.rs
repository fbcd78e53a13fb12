//! Lists of link numbers: right ones, and wrong ones of every kind.

use crate::random::Random;
use crate::second::Sheet;

/// How the next delivery is chosen among those that wait.
#[derive(Clone, Copy)]
enum Choice {
    Any,
    Newest,
    Oldest,
    Highest,
}

const CHOICES: [Choice; 5] =
    [Choice::Any, Choice::Any, Choice::Newest, Choice::Oldest, Choice::Highest];

/// Nodes still to be heard by each node, and the links whose messages wait.
struct Waiting<'a> {
    sheet: &'a Sheet,
    unheard: Vec<usize>,
    unheard_flowing: Vec<usize>,
    links: Vec<usize>,
}

impl<'a> Waiting<'a> {
    fn new(sheet: &'a Sheet) -> Waiting<'a> {
        let nodes = 0..sheet.nodes;
        let mut waiting = Waiting {
            sheet,
            unheard: nodes.clone().map(|node| sheet.links_out(node).count()).collect(),
            unheard_flowing: nodes.map(|node| sheet.flowing_out(node).count()).collect(),
            links: Vec::new(),
        };
        waiting.open(sheet.destination, false);
        waiting
    }

    /// The links of a node that flow, or those that don't, wait from now on.
    fn open(&mut self, node: usize, flowing: bool) {
        let sheet = self.sheet;
        let opened = sheet.links_out(node).filter(|&link| sheet.links[link].flows() == flowing);
        self.links.extend(opened);
    }

    fn take(&mut self, choice: Choice, random: &mut Random) -> usize {
        let newest = self.links.len() - 1;
        let place = match choice {
            Choice::Any => random.below(self.links.len()),
            Choice::Newest => newest,
            Choice::Oldest => 0,
            Choice::Highest => (0..=newest).max_by_key(|&at| self.links[at]).unwrap_or(0),
        };
        self.links.remove(place)
    }

    fn deliver(&mut self, link: usize) {
        let receiver = self.sheet.links[link].to;
        self.unheard[receiver] -= 1;
        if self.sheet.links[self.sheet.opposite(link)].flows() {
            self.unheard_flowing[receiver] -= 1;
            if self.unheard_flowing[receiver] == 0 {
                self.open(receiver, false);
            }
        }
        if self.unheard[receiver] == 0 {
            self.open(receiver, true);
        }
    }
}

/// A list that Play accepts: all links, each while it waits.
pub fn right_order(sheet: &Sheet, random: &mut Random) -> Vec<u16> {
    let choice = random.pick(&CHOICES);
    let mut waiting = Waiting::new(sheet);
    let mut order = Vec::with_capacity(sheet.links.len());
    while !waiting.links.is_empty() {
        let link = waiting.take(choice, random);
        waiting.deliver(link);
        order.push(link as u16);
    }
    order
}

/// A list with the given number of links in mind that is mostly wrong, made from a right one.
pub fn damaged_order(right: &[u16], links: usize, random: &mut Random) -> Vec<u16> {
    let mut order = right.to_vec();
    for _ in 0..random.within(1, 3) {
        damage(&mut order, links, random);
    }
    order
}

fn damage(order: &mut Vec<u16>, links: usize, random: &mut Random) {
    let place = random.below(order.len() + 1);
    match random.below(9) {
        0 => order.truncate(place),
        1 => order.insert(place, any_number(links, random)),
        2 if place < order.len() => order[place] = any_number(links, random),
        3 if place < order.len() => {
            order.remove(place);
        }
        4 if place < order.len() => {
            let other = random.below(order.len());
            order.swap(place, other);
        }
        5 if place < order.len() => order.insert(place, order[place]),
        6 => order.extend((0..random.within(1, 20)).map(|_| any_number(links, random))),
        7 => *order = any_list(links, random),
        _ => order.push(any_number(links, random)),
    }
}

/// A link number, just beyond the last one, or far beyond it.
fn any_number(links: usize, random: &mut Random) -> u16 {
    match random.below(8) {
        0 => links as u16,
        1 => 65_535,
        2 => random.word() as u16,
        3 => (links + 1 + random.below(3)) as u16,
        _ => random.below(links.max(1)) as u16,
    }
}

/// A list of any numbers; now and then a very long one.
pub fn any_list(links: usize, random: &mut Random) -> Vec<u16> {
    let length = if random.once_in(50) { 70_000 } else { random.below(12) };
    (0..length).map(|_| any_number(links, random)).collect()
}
