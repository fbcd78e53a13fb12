//! Sheets from a seed: right ones of every shape and size, and wrong ones of every kind.

use crate::draft::{Draft, DraftLink, HEAD_BYTES, LINK_BYTES, NODE_BYTES};
use crate::random::Random;
use crate::second::{marginal_delay, Calculation, Sheet};

const WHOLE: u32 = 65_536;
const MOST_LINKS: usize = 512;

/// A duplex graph: the number of nodes, and each line once.
struct Graph {
    nodes: usize,
    lines: Vec<(u8, u8)>,
}

impl Graph {
    fn has(&self, one: u8, other: u8) -> bool {
        self.lines.iter().any(|&line| line == (one, other) || line == (other, one))
    }

    fn add(&mut self, one: u8, other: u8) {
        if one != other && !self.has(one, other) && 2 * self.lines.len() < MOST_LINKS {
            self.lines.push((one, other));
        }
    }

    fn add_at_random(&mut self, tries: usize, random: &mut Random) {
        for _ in 0..tries {
            let (one, other) = (random.below(self.nodes) as u8, random.below(self.nodes) as u8);
            self.add(one, other);
        }
    }
}

/// A number of nodes: mostly few, since few make the most different sheets in a second.
fn some_nodes(random: &mut Random) -> usize {
    match random.below(40) {
        0..=23 => random.within(2, 7),
        24..=34 => random.within(8, 16),
        35..=38 => random.within(17, 40),
        _ => random.within(41, 64),
    }
}

/// A tree that grows at random: every shape from a chain to a star.
fn tree(nodes: usize, random: &mut Random) -> Graph {
    let mut graph = Graph { nodes, lines: Vec::new() };
    let reach = random.within(1, nodes);
    for node in 1..nodes {
        let nearest = node.saturating_sub(reach);
        graph.add(random.within(nearest, node - 1) as u8, node as u8);
    }
    graph
}

fn chain(nodes: usize) -> Graph {
    let lines = (1..nodes).map(|node| (node as u8 - 1, node as u8)).collect();
    Graph { nodes, lines }
}

fn star(nodes: usize) -> Graph {
    Graph { nodes, lines: (1..nodes).map(|node| (0, node as u8)).collect() }
}

fn ring(nodes: usize) -> Graph {
    let mut graph = chain(nodes);
    graph.add(nodes as u8 - 1, 0);
    graph
}

fn complete(nodes: usize) -> Graph {
    let mut graph = Graph { nodes, lines: Vec::new() };
    for one in 0..nodes {
        for other in one + 1..nodes {
            graph.add(one as u8, other as u8);
        }
    }
    graph
}

/// A tree with so many lines more that it has this many links, if the nodes can have them.
fn meshed(nodes: usize, links: usize, random: &mut Random) -> Graph {
    let mut graph = tree(nodes, random);
    let most = links.min(nodes * (nodes - 1)) / 2;
    while graph.lines.len() < most {
        graph.add_at_random(1, random);
    }
    graph
}

fn some_graph(random: &mut Random) -> Graph {
    match random.below(120) {
        0..=5 => chain(2),
        6..=13 => chain(some_nodes(random)),
        14..=21 => star(some_nodes(random)),
        22..=29 => ring(some_nodes(random)),
        30..=39 => tree(some_nodes(random), random),
        40..=54 => {
            let nodes = random.within(2, 9);
            complete(nodes)
        }
        55 => complete(random.within(10, 23)),
        56 => chain(64),
        57 => star(64),
        58 => meshed(64, MOST_LINKS, random),
        59 => {
            let nodes = random.within(24, 64);
            meshed(nodes, MOST_LINKS, random)
        }
        _ => {
            let nodes = some_nodes(random);
            let mut graph = tree(nodes, random);
            let tries = random.below(2 * nodes);
            graph.add_at_random(tries, random);
            graph
        }
    }
}

/// Gives the nodes new numbers, so that a shape does not tie a place to a number.
fn renumber(graph: &mut Graph, random: &mut Random) {
    let mut names: Vec<u8> = (0..graph.nodes as u8).collect();
    random.shuffle(&mut names);
    for line in &mut graph.lines {
        *line = (names[line.0 as usize], names[line.1 as usize]);
    }
}

/// A draft of a graph: loads, traffic and step are set, all fractions 0.
fn dry_draft(graph: &Graph, random: &mut Random) -> Draft {
    let load_steps = some_load_steps(random);
    let mut links = Vec::with_capacity(2 * graph.lines.len());
    for &(one, other) in &graph.lines {
        for (from, to) in [(one, other), (other, one)] {
            links.push(DraftLink { from, to, load_step: load_steps(random), fraction: 0 });
        }
    }
    let traffic_style = random.below(6);
    let mut draft = Draft {
        nodes: graph.nodes as u8,
        destination: random.below(graph.nodes) as u8,
        step: some_step(random),
        traffic: (0..graph.nodes as u8)
            .map(|node| (node, some_traffic(traffic_style, random)))
            .collect(),
        links,
    };
    draft.sort();
    draft
}

/// A way to choose load steps: all alike makes ties, few high ones make blocked nodes.
fn some_load_steps(random: &mut Random) -> fn(&mut Random) -> u8 {
    const WAYS: [fn(&mut Random) -> u8; 7] = [
        |_| 0,
        |_| 255,
        |random| random.pick(&[0, 255]),
        |random| random.pick(&[0, 0, 0, 192, 224]),
        |random| random.pick(&[0, 128, 192, 224, 240, 255]),
        |random| random.below(5) as u8,
        |random| random.byte(),
    ];
    random.pick(&WAYS)
}

fn some_traffic(style: usize, random: &mut Random) -> u32 {
    match style {
        0 => 0,
        1 => u32::MAX,
        2 => random.below(4) as u32,
        3 => random.pick(&[0, 1, u32::MAX, u32::MAX - 1, 0x8000_0000]),
        _ => random.of_any_size(32) as u32,
    }
}

fn some_step(random: &mut Random) -> u32 {
    match random.below(6) {
        0 => 1,
        1 => 1_048_576,
        2 => random.within(1, 1_048_576) as u32,
        _ => random.of_any_size(20).max(1) as u32,
    }
}

/// Neighbours of each node.
fn neighbours(draft: &Draft) -> Vec<Vec<u8>> {
    let mut lists = vec![Vec::new(); draft.nodes as usize];
    for link in &draft.links {
        lists[link.from as usize].push(link.to);
    }
    lists
}

/// Ranks the nodes from the destination outwards, at random: each has a neighbour of lower rank.
fn ranks(draft: &Draft, near: &[Vec<u8>], random: &mut Random) -> Vec<usize> {
    let mut rank = vec![usize::MAX; draft.nodes as usize];
    let mut edge = vec![draft.destination];
    let mut next = 0;
    while !edge.is_empty() {
        let place = random.below(edge.len());
        let node = edge.swap_remove(place) as usize;
        if rank[node] == usize::MAX {
            rank[node] = next;
            next += 1;
            edge.extend(near[node].iter().filter(|&&far| rank[far as usize] == usize::MAX));
        }
    }
    rank
}

/// Parts that add up to the whole, each above 0 where there is enough of it.
fn some_split(parts: usize, random: &mut Random) -> Vec<u32> {
    let mut split = vec![0; parts];
    match random.below(4) {
        0 => split[random.below(parts)] = WHOLE,
        1 => {
            let each = WHOLE / parts as u32;
            split.fill(each);
            split[0] += WHOLE - each * parts as u32;
        }
        2 => {
            split.fill(1);
            split[random.below(parts)] += WHOLE - parts as u32;
        }
        _ => {
            let mut cuts: Vec<u32> = (1..parts).map(|_| random.below(65_537) as u32).collect();
            cuts.sort_unstable();
            cuts.push(WHOLE);
            let mut last = 0;
            for (part, cut) in split.iter_mut().zip(cuts) {
                *part = cut - last;
                last = cut;
            }
        }
    }
    split
}

/// Sets a node's fractions to a split over some of the far nodes allowed.
fn set_row(draft: &mut Draft, node: u8, mut allowed: Vec<u8>, random: &mut Random) {
    random.shuffle(&mut allowed);
    let used = random.within(1, allowed.len());
    let split = some_split(used, random);
    for (far, fraction) in allowed.into_iter().zip(split) {
        draft.link(node, far).fraction = fraction;
    }
}

/// All nodes but the destination.
fn sources(draft: &Draft) -> Vec<u8> {
    (0..draft.nodes).filter(|&node| node != draft.destination).collect()
}

/// Fractions only towards lower rank, so that there is no loop.
fn set_fractions(draft: &mut Draft, random: &mut Random) {
    let near = neighbours(draft);
    let rank = ranks(draft, &near, random);
    for node in sources(draft) {
        let lower = |&&far: &&u8| rank[far as usize] < rank[node as usize];
        let allowed = near[node as usize].iter().filter(lower).copied().collect();
        set_row(draft, node, allowed, random);
    }
}

/// Fractions in every direction: sums are right, and there mostly are loops.
fn set_looping_fractions(draft: &mut Draft, random: &mut Random) {
    let near = neighbours(draft);
    for node in sources(draft) {
        set_row(draft, node, near[node as usize].clone(), random);
    }
}

/// A draft that Check accepts.
pub fn right_draft(random: &mut Random) -> Draft {
    let mut graph = some_graph(random);
    if random.once_in(2) {
        renumber(&mut graph, random);
    }
    let mut draft = dry_draft(&graph, random);
    set_fractions(&mut draft, random);
    if random.once_in(4) {
        make_equality(&mut draft, random);
    }
    draft
}

/// A right draft of this many nodes and links, for the benchmark.
pub fn right_draft_of(nodes: usize, links: usize, random: &mut Random) -> Draft {
    let mut graph = meshed(nodes, links, random);
    renumber(&mut graph, random);
    let mut draft = dry_draft(&graph, random);
    for link in &mut draft.links {
        link.load_step = random.below(200) as u8;
    }
    for node in &mut draft.traffic {
        node.1 = random.within(1, 100_000) as u32;
    }
    draft.step = 1_000;
    set_fractions(&mut draft, random);
    draft
}

/// Where a flowing link leads to a delay that is not lower, chooses step and traffic so that
/// both products of the rule for improper links are equal; half the time one off.
fn make_equality(draft: &mut Draft, random: &mut Random) {
    let sheet = Sheet::read(&draft.write()).expect("fractions were set towards lower rank");
    let mut calculation = Calculation::new(&sheet);
    let mut found = Vec::new();
    for link in sheet.links.iter().filter(|link| link.flows()) {
        let (own, far) = (calculation.word_of(link.from).delay, calculation.word_of(link.to).delay);
        if own <= far {
            let rise = marginal_delay(link.load_step) + far - own;
            found.push((link.from, u64::from(link.fraction), rise));
        }
    }
    if found.is_empty() {
        return;
    }
    let (node, fraction, rise) = random.pick(&found);
    let common = common_divisor(fraction, rise);
    draft.step = (fraction / common) as u32;
    let traffic = (rise / common) as u32;
    draft.traffic[node].1 = if random.once_in(2) { traffic } else { traffic - 1 };
}

fn common_divisor(one: u64, other: u64) -> u64 {
    if other == 0 {
        one
    } else {
        common_divisor(other, one % other)
    }
}

/// A draft with one loop or several, or by luck with none.
fn looping_draft(random: &mut Random) -> Draft {
    let mut graph = some_graph(random);
    renumber(&mut graph, random);
    let mut draft = dry_draft(&graph, random);
    set_looping_fractions(&mut draft, random);
    draft
}

/// A draft of 513 links or more, otherwise right but for its fractions.
fn crowded_draft(random: &mut Random) -> Draft {
    let nodes = random.within(24, 64);
    let mut graph = Graph { nodes, lines: Vec::new() };
    let wanted = 257 + random.below(3);
    while graph.lines.len() < wanted {
        let (one, other) = (random.below(nodes) as u8, random.below(nodes) as u8);
        if one != other && !graph.has(one, other) {
            graph.lines.push((one, other));
        }
    }
    dry_draft(&graph, random)
}

/// One fault, at a random place, in what the draft says.
fn spoil_draft(draft: &mut Draft, random: &mut Random) {
    let nodes = draft.nodes;
    let node_records = draft.traffic.len();
    let links = draft.links.len();
    match random.below(16) {
        0 => draft.step = random.pick(&[0, 1_048_577, u32::MAX, 0x0100_0000]),
        1 => {
            let near = [nodes.wrapping_sub(1), nodes.wrapping_add(1)];
            draft.nodes = random.pick(&[0, 1, 65, 255, near[0], near[1]]);
        }
        2 => draft.destination = random.pick(&[nodes, nodes.wrapping_add(1), 255]),
        3 => draft.destination = random.below(nodes as usize) as u8,
        4 if node_records > 0 => {
            draft.traffic[random.below(node_records)].0 = random.byte();
        }
        5 if node_records > 0 => {
            let (one, other) = (random.below(node_records), random.below(node_records));
            draft.traffic.swap(one, other);
        }
        6 => draft.traffic.push((node_records as u8, random.word() as u32)),
        7 if node_records > 0 => {
            draft.traffic.remove(random.below(node_records));
        }
        _ if links > 0 => spoil_link(draft, random),
        _ => draft.links.push(DraftLink { from: 0, to: 1, load_step: 0, fraction: 0 }),
    }
}

fn spoil_link(draft: &mut Draft, random: &mut Random) {
    let nodes = draft.nodes;
    let links = draft.links.len();
    let place = random.below(links);
    match random.below(11) {
        0 => draft.links[place].from = random.pick(&[nodes, nodes.wrapping_add(1), 64, 255]),
        1 => draft.links[place].to = random.pick(&[nodes, nodes.wrapping_add(1), 64, 255]),
        2 => draft.links[place].to = draft.links[place].from,
        3 => draft.links[place].fraction = random.pick(&[65_537, u32::MAX, 0x0100_0000, 131_072]),
        4 => {
            let other = random.below(links);
            draft.links.swap(place, other);
        }
        5 => draft.links.insert(place, draft.links[place]),
        6 => {
            draft.links.remove(place);
        }
        7 => {
            let fraction = &mut draft.links[place].fraction;
            let more = random.once_in(2);
            *fraction = if more { fraction.wrapping_add(1) } else { fraction.wrapping_sub(1) };
        }
        8 => draft.links[place].fraction = random.below(65_537) as u32,
        9 => {
            let other = random.below(links);
            let fraction = draft.links[place].fraction;
            draft.links[place].fraction = draft.links[other].fraction;
            draft.links[other].fraction = fraction;
        }
        _ => {
            let shift = random.below(place + 1);
            draft.links[shift..].rotate_left(1);
        }
    }
}

/// One fault in the bytes, with no regard for records.
fn spoil_bytes(bytes: &mut Vec<u8>, random: &mut Random) {
    let place = random.below(bytes.len() + 1);
    match random.below(9) {
        0 => bytes.truncate(place),
        1 => bytes.insert(place, random.byte()),
        2 => bytes.push(random.pick(&[0, 1, 2, 3, 9, 255])),
        3 => bytes.extend((0..random.within(1, 40)).map(|at| at as u8)),
        4 if place < bytes.len() => {
            bytes.remove(place);
        }
        5 if place < bytes.len() => bytes[place] ^= 1 << random.below(8),
        6 if place < bytes.len() => bytes[place] = random.pick(&[0, 1, 2, 3, 9, 255]),
        7 if place < bytes.len() => {
            let piece = bytes[place..(place + random.within(1, 16)).min(bytes.len())].to_vec();
            bytes.splice(place..place, piece);
        }
        _ if place < bytes.len() => bytes[place] = random.byte(),
        _ => bytes.push(random.byte()),
    }
}

/// The kind of one record is changed to some other kind.
fn spoil_kind(draft: &Draft, bytes: &mut [u8], random: &mut Random) {
    let place = random.pick(&draft.record_offsets());
    bytes[place] = random.pick(&[0, 1, 2, 3, 4, 8, 9, 10, 255]);
}

/// Bytes that may be anything; some begin like a sheet so that judging gets further.
fn any_bytes(random: &mut Random) -> Vec<u8> {
    let length = random.below(120);
    let mut bytes: Vec<u8> = (0..length).map(|_| random.byte()).collect();
    if random.once_in(2) {
        bytes = bytes.into_iter().map(|byte| [0, 1, 2, 3, 9][byte as usize % 5]).collect();
    }
    if random.once_in(2) {
        let nodes = random.within(2, 64) as u8;
        let mut start = vec![1, nodes, random.below(nodes as usize) as u8, 0, 0, 0, 1];
        if random.once_in(2) {
            for node in 0..nodes {
                start.extend_from_slice(&[2, node, 0, 0, 0, node]);
            }
        }
        start.extend(bytes);
        bytes = start;
    }
    bytes
}

/// More links than may be; the 513th is whole, cut, out of range or out of order.
fn crowded_sheet(random: &mut Random) -> Vec<u8> {
    let mut draft = crowded_draft(random);
    let last = MOST_LINKS;
    match random.below(5) {
        0 => draft.links[last].to = draft.links[last].from,
        1 => draft.links[last].fraction = 65_537,
        2 => draft.links[last] = draft.links[last - 1],
        3 => draft.links.truncate(last),
        _ => {}
    }
    let mut bytes = draft.write();
    let record = HEAD_BYTES + NODE_BYTES * draft.nodes as usize + LINK_BYTES * last;
    match random.below(4) {
        0 => bytes.truncate(record + random.below(LINK_BYTES + 1)),
        1 if record < bytes.len() => bytes[record] = random.byte(),
        _ => {}
    }
    bytes
}

/// A sheet of a megabyte.
pub fn megabyte_sheet(random: &mut Random) -> Vec<u8> {
    let mut bytes = right_draft(random).write();
    let filler = random.pick(&[0u8, 3, 9, 255]);
    match random.below(4) {
        0 => {}
        1 => bytes.clear(),
        2 => bytes.truncate(bytes.len() - 1),
        _ => bytes = crowded_draft(random).write(),
    }
    bytes.resize(1 << 20, filler);
    bytes
}

/// Any sheet at all, right or wrong. Those of a megabyte are the caller's to add.
pub fn any_sheet(random: &mut Random) -> Vec<u8> {
    match random.below(100) {
        0..=44 => right_draft(random).write(),
        45..=58 => {
            let mut draft = right_draft(random);
            spoil_draft(&mut draft, random);
            draft.write()
        }
        59..=66 => several_faults(random),
        67..=78 => {
            let mut bytes = right_draft(random).write();
            for _ in 0..random.within(1, 3) {
                spoil_bytes(&mut bytes, random);
            }
            bytes
        }
        79..=82 => {
            let draft = right_draft(random);
            let mut bytes = draft.write();
            spoil_kind(&draft, &mut bytes, random);
            bytes
        }
        83..=92 => looping_draft(random).write(),
        93 => crowded_sheet(random),
        _ => any_bytes(random),
    }
}

/// A sheet with more than one fault; mostly also with loops.
fn several_faults(random: &mut Random) -> Vec<u8> {
    let mut draft = if random.once_in(2) { looping_draft(random) } else { right_draft(random) };
    for _ in 0..random.within(2, 4) {
        // Faults in the links leave more of the later rules to be judged.
        if draft.links.is_empty() || random.once_in(4) {
            spoil_draft(&mut draft, random);
        } else {
            spoil_link(&mut draft, random);
        }
    }
    if random.once_in(3) {
        draft.sort();
    }
    let mut bytes = draft.write();
    if random.once_in(4) {
        spoil_bytes(&mut bytes, random);
    }
    bytes
}

#[cfg(test)]
mod tests {
    use super::*;

    #[test]
    fn right_drafts_are_accepted_and_have_every_size() {
        let mut random = Random::new(1);
        let (mut largest, mut most_links, mut smallest) = (0, 0, 64);
        for _ in 0..3_000 {
            let sheet = Sheet::read(&right_draft(&mut random).write()).expect("a right draft");
            largest = largest.max(sheet.nodes);
            smallest = smallest.min(sheet.nodes);
            most_links = most_links.max(sheet.links.len());
        }
        assert_eq!((smallest, largest, most_links), (2, 64, 512));
    }

    #[test]
    fn drafts_of_a_size_have_it() {
        for (nodes, links) in [(2, 2), (16, 60), (64, 512)] {
            let draft = right_draft_of(nodes, links, &mut Random::new(7));
            let sheet = Sheet::read(&draft.write()).expect("a right draft");
            assert_eq!((sheet.nodes, sheet.links.len()), (nodes, links));
        }
    }

    #[test]
    fn blocked_nodes_and_equalities_occur() {
        let mut random = Random::new(3);
        let (mut blocked, mut unblocked) = (0, 0);
        for _ in 0..1_000 {
            let sheet = Sheet::read(&right_draft(&mut random).write()).expect("a right draft");
            let mut calculation = Calculation::new(&sheet);
            let marks = (0..sheet.nodes).filter(|&node| calculation.word_of(node).blocked).count();
            blocked += (marks > 0) as usize;
            unblocked += (marks == 0) as usize;
        }
        assert!(blocked > 50 && unblocked > 50, "{blocked} blocked, {unblocked} not");
    }
}
