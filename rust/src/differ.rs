//! Runs implementations on the same inputs and compares answers and buffers to the last byte.
//!
//! An input is one call with its sheet, its list and its room. The output buffer is larger than
//! the room on both sides and filled beforehand, so that a byte written where none belongs shows.

use crate::calls::{Calls, SECOND};
use crate::draft::{Draft, LINK_BYTES};
use crate::generate;
use crate::orders;
use crate::plates;
use crate::random::Random;
use crate::refusal::{Answer, Refusal};
use crate::second::Sheet;

#[derive(Clone, Copy, PartialEq, Eq, Debug)]
pub enum Call {
    Check,
    Next,
    Play,
    Frame,
    House,
}

pub const CALLS: [Call; 5] = [Call::Check, Call::Next, Call::Play, Call::Frame, Call::House];

/// A sheet with at most so many links is small: every frame of its order is compared.
const SMALL: usize = 12;

impl Call {
    /// Whether a refusal of this number (0: acceptance) can come from this call at all.
    fn can_answer(self, number: usize) -> bool {
        match number {
            0..=8 => true,
            9 => self != Call::Check,
            10 | 12 => matches!(self, Call::Play | Call::Frame),
            _ => self == Call::Play,
        }
    }
}

/// One call with everything it is given; the room counts bytes, for House order numbers.
#[derive(Clone, Copy)]
pub struct Input<'a> {
    pub call: Call,
    pub sheet: &'a [u8],
    pub order: &'a [u16],
    pub room: usize,
}

/// What an implementation made of an input: its answer and the whole buffer, edges included.
#[derive(PartialEq, Eq)]
struct Outcome {
    answer: Answer,
    buffer: Vec<u8>,
}

/// Bytes on either side of the output that nobody may touch.
const EDGE: usize = 32;

/// Differences that are printed, and after which a run ends: more would only repeat themselves.
const MOST_DIFFERENCES: u64 = 3;

pub struct Differ {
    /// The implementations that are compared with the second one.
    others: Vec<Calls>,
    pub inputs: u64,
    pub differences: u64,
    /// For each call, how often each number was answered.
    seen: [[u64; 13]; 5],
    /// Seed of the case that is run, to be printed with a difference.
    case_seed: Option<u64>,
}

impl Differ {
    pub fn new(others: &[Calls]) -> Differ {
        Differ { others: others.to_vec(), inputs: 0, differences: 0, seen: [[0; 13]; 5], case_seed: None }
    }

    /// Compares one input; gives back what the second implementation wrote.
    pub fn compare(&mut self, input: Input) -> Vec<u8> {
        self.inputs += 1;
        let filling = Random::new(self.inputs).word();
        let expected = run(&SECOND, input, filling);
        self.seen[input.call as usize][number_of(expected.answer)] += 1;
        if let Some(fault) = broken_promise(input, &expected, filling) {
            self.report(input, SECOND.name, &fault);
        }
        for implementation in self.others.clone() {
            let sheet_before = input.sheet.to_vec();
            let outcome = run(&implementation, input, filling);
            if outcome != expected {
                self.report(input, implementation.name, &describe(&expected, &outcome));
            }
            if sheet_before != input.sheet {
                self.report(input, implementation.name, "the sheet itself was changed");
            }
        }
        let written = expected.answer.map_or(0, |value| value * unit(input.call));
        expected.buffer[EDGE..EDGE + written].to_vec()
    }

    /// Compares until so many inputs were made in all, from random cases of rising seeds.
    pub fn run_cases(&mut self, inputs: u64, first_seed: u64) {
        let mut seed = first_seed;
        while self.inputs < inputs && !self.should_stop() {
            self.run_case(seed);
            seed = seed.wrapping_add(1);
        }
    }

    pub fn should_stop(&self) -> bool {
        self.differences >= MOST_DIFFERENCES
    }

    /// One sheet from a seed, and every call on it.
    pub fn run_case(&mut self, seed: u64) {
        self.case_seed = Some(seed);
        let mut random = Random::new(seed);
        let sheet = if random.once_in(2_000) {
            generate::megabyte_sheet(&mut random)
        } else {
            generate::any_sheet(&mut random)
        };
        match Sheet::read(&sheet) {
            Ok(content) => self.run_accepted(&sheet, &content, &mut random),
            Err(_) => self.run_refused(&sheet, &mut random),
        }
        self.case_seed = None;
    }

    /// Every call must refuse alike; list and room must not matter.
    fn run_refused(&mut self, sheet: &[u8], random: &mut Random) {
        let order = orders::any_list(8, random);
        for call in CALLS {
            let room = if random.once_in(2) { 0 } else { random.below(200) };
            self.compare(Input { call, sheet, order: &order, room });
        }
    }

    fn run_accepted(&mut self, sheet: &[u8], content: &Sheet, random: &mut Random) {
        self.compare(Input { call: Call::Check, sheet, order: &[], room: 0 });
        let next = self.run_next(sheet, random);
        self.run_house(sheet, content, &next, random);
        let right = orders::right_order(content, random);
        self.run_right_order(sheet, content, &right, &next, random);
        self.run_wrong_orders(sheet, content, &right, random);
        // What a round leaves is a sheet no generator thinks of: now and then go on from it.
        if random.once_in(3) {
            let content = Sheet::read(&next).expect("what Next writes passes Check");
            self.run_accepted(&next, &content, random);
        }
    }

    fn run_next(&mut self, sheet: &[u8], random: &mut Random) -> Vec<u8> {
        let call = Call::Next;
        if random.once_in(4) {
            let room = some_short_room(sheet.len(), random);
            self.compare(Input { call, sheet, order: &[], room });
        }
        let room = sheet.len() + some_excess(random);
        let next = self.compare(Input { call, sheet, order: &[], room });
        if Sheet::read(&next).is_err() {
            self.report(Input { call, sheet, order: &[], room }, SECOND.name, "Next writes a wrong sheet");
        }
        next
    }

    fn run_house(&mut self, sheet: &[u8], content: &Sheet, next: &[u8], random: &mut Random) {
        let links = content.links.len();
        if random.once_in(4) {
            let room = some_short_room(links, random);
            self.compare(Input { call: Call::House, sheet, order: &[], room });
        }
        let room = links + some_excess(random);
        let written = self.compare(Input { call: Call::House, sheet, order: &[], room });
        let house = numbers(&written);
        self.play_as_next(sheet, &house, next, random);
    }

    /// Play with a right list must write what Next writes.
    fn play_as_next(&mut self, sheet: &[u8], order: &[u16], next: &[u8], random: &mut Random) {
        let room = sheet.len() + some_excess(random);
        let input = Input { call: Call::Play, sheet, order, room };
        let played = self.compare(input);
        if played != next {
            self.report(input, SECOND.name, "Play writes something else than Next");
        }
    }

    fn run_right_order(
        &mut self,
        sheet: &[u8],
        content: &Sheet,
        right: &[u16],
        next: &[u8],
        random: &mut Random,
    ) {
        self.play_as_next(sheet, right, next, random);
        let needed = 6 * content.nodes;
        if right.len() <= SMALL {
            for stop in 0..=right.len() {
                self.compare(Input { call: Call::Frame, sheet, order: &right[..stop], room: needed });
            }
        }
        for _ in 0..2 {
            let order = &right[..random.below(right.len() + 1)];
            let room = needed + some_excess(random);
            self.compare(Input { call: Call::Frame, sheet, order, room });
            if random.once_in(8) {
                let room = some_short_room(needed, random);
                self.compare(Input { call: Call::Frame, sheet, order, room });
            }
        }
        let room = needed + some_excess(random);
        self.compare(Input { call: Call::Frame, sheet, order: right, room });
    }

    fn run_wrong_orders(&mut self, sheet: &[u8], content: &Sheet, right: &[u16], random: &mut Random) {
        let links = content.links.len();
        let order = orders::damaged_order(right, links, random);
        for call in [Call::Play, Call::Frame] {
            let needed = needed_room(call, sheet, content.nodes, links);
            // A list that is wrong must not be looked at when the room is short.
            let short = random.once_in(8);
            let room = if short { some_short_room(needed, random) } else { needed };
            self.compare(Input { call, sheet, order: &order, room });
        }
        let stop = random.below(right.len() + 1);
        let order = &right[..stop];
        let room = sheet.len() + some_excess(random);
        self.compare(Input { call: Call::Play, sheet, order, room });
    }

    /// Counts a difference, and prints it unless enough were printed before.
    fn report(&mut self, input: Input, name: &str, fault: &str) {
        self.differences += 1;
        if self.differences > MOST_DIFFERENCES {
            return;
        }
        match self.case_seed {
            Some(seed) => println!("difference in {name}, case seed {seed}"),
            None => println!("difference in {name}, not from a seed"),
        }
        println!("  {:?}, room {}, {fault}", input.call, input.room);
        println!("  sheet, {} bytes: {}", input.sheet.len(), hex(input.sheet));
        let order: Vec<u8> = input.order.iter().flat_map(|number| number.to_be_bytes()).collect();
        println!("  list, {} numbers: {}", input.order.len(), hex(&order));
    }

    /// Numbers that a call can answer and that no input brought up: a run must have seen all.
    pub fn unseen(&self) -> Vec<(Call, usize)> {
        let mut unseen = Vec::new();
        for call in CALLS {
            let could = (0..13).filter(|&number| call.can_answer(number));
            let missed = could.filter(|&number| self.seen[call as usize][number] == 0);
            unseen.extend(missed.map(|number| (call, number)));
        }
        unseen
    }

    pub fn print_seen(&self) {
        println!("answers   accepted        1        2        3        4        5        6        7        8        9       10       11       12");
        for call in CALLS {
            let counts: Vec<String> =
                self.seen[call as usize].iter().map(|count| format!("{count:8}")).collect();
            println!("{:9} {}", format!("{call:?}"), counts.join(" "));
        }
    }
}

/// Numbers as they stand in a buffer of House order: the machine's own.
fn numbers(bytes: &[u8]) -> Vec<u16> {
    bytes.chunks_exact(2).map(|pair| u16::from_ne_bytes([pair[0], pair[1]])).collect()
}

fn number_of(answer: Answer) -> usize {
    answer.err().map_or(0, |refusal| refusal.number as usize)
}

/// Bytes of one unit that a call counts its room in.
fn unit(call: Call) -> usize {
    match call {
        Call::Check => 0,
        Call::House => 2,
        _ => 1,
    }
}

fn needed_room(call: Call, sheet: &[u8], nodes: usize, links: usize) -> usize {
    match call {
        Call::Check => 0,
        Call::Next | Call::Play => sheet.len(),
        Call::Frame => 6 * nodes,
        Call::House => links,
    }
}

fn some_short_room(needed: usize, random: &mut Random) -> usize {
    match random.below(3) {
        0 => 0,
        1 => needed - 1,
        _ => random.below(needed),
    }
}

fn some_excess(random: &mut Random) -> usize {
    match random.below(4) {
        0 | 1 => 0,
        2 => 1,
        _ => random.below(100),
    }
}

fn filled(length: usize, filling: u64) -> Vec<u8> {
    let mut random = Random::new(filling);
    let mut bytes = Vec::with_capacity(length + 8);
    while bytes.len() < length {
        bytes.extend_from_slice(&random.word().to_ne_bytes());
    }
    bytes.truncate(length);
    bytes
}

fn run(calls: &Calls, input: Input, filling: u64) -> Outcome {
    let Input { call, sheet, order, room } = input;
    let mut buffer = filled(2 * EDGE + room * unit(call), filling);
    let answer = if call == Call::House {
        let mut wide = numbers(&buffer);
        let answer = (calls.house)(sheet, &mut wide[EDGE / 2..EDGE / 2 + room]);
        buffer.clear();
        wide.iter().for_each(|number| buffer.extend_from_slice(&number.to_ne_bytes()));
        answer
    } else {
        let end = buffer.len() - EDGE;
        let out = &mut buffer[EDGE..end];
        match call {
            Call::Check => (calls.check)(sheet),
            Call::Next => (calls.next)(sheet, out),
            Call::Play => (calls.play)(sheet, order, out),
            Call::Frame => (calls.frame)(sheet, order, out),
            Call::House => unreachable!("answered above"),
        }
    };
    Outcome { answer, buffer }
}

/// What holds of every call: the former content stays on refusal and beyond the answer.
fn broken_promise(input: Input, outcome: &Outcome, filling: u64) -> Option<String> {
    let before = filled(outcome.buffer.len(), filling);
    let written = outcome.answer.map_or(0, |value| value * unit(input.call));
    let end = EDGE + written;
    let edges_kept = outcome.buffer[..EDGE] == before[..EDGE] && outcome.buffer[end..] == before[end..];
    (!edges_kept).then(|| "bytes beyond the answer were changed".to_string())
}

fn describe(expected: &Outcome, outcome: &Outcome) -> String {
    if expected.answer != outcome.answer {
        return format!("due {}, answered {}", words(expected.answer), words(outcome.answer));
    }
    let same = |pair: (&u8, &u8)| pair.0 == pair.1;
    let place = expected.buffer.iter().zip(&outcome.buffer).take_while(|&pair| same(pair)).count();
    format!(
        "{} by both, byte {} of the output (negative: before it) due {:02x}, written {:02x}",
        words(expected.answer),
        place as i64 - EDGE as i64,
        expected.buffer[place],
        outcome.buffer[place]
    )
}

fn words(answer: Answer) -> String {
    match answer {
        Ok(value) => format!("accepted {value}"),
        Err(Refusal { number, place }) => format!("refused {number} at {place}"),
    }
}

/// Hex digits; the end of a very long sheet is left out, the seed brings it back.
pub fn hex(bytes: &[u8]) -> String {
    const MOST: usize = 10_000;
    let mut text: String = bytes.iter().take(MOST).map(|byte| format!("{byte:02x}")).collect();
    if bytes.len() > MOST {
        text.push_str("...");
    }
    text
}

/// The inputs that are not left to chance.
pub fn run_all_of_a_kind(differ: &mut Differ) {
    let mut random = Random::new(20);
    let small = [plates::plate_a(), plates::plate_b(), plates::plate_with_loop()];
    let large = generate::right_draft_of(64, 512, &mut random);
    let middle = generate::right_draft_of(16, 60, &mut random);
    for draft in small.iter().chain([&middle, &large]) {
        every_length(differ, &draft.write());
        every_kind_everywhere(differ, draft);
        every_link_missing(differ, draft);
    }
    for draft in &small {
        every_byte_everywhere(differ, &draft.write());
        every_room(differ, draft);
        every_short_list(differ, &draft.write());
    }
    every_room(differ, &middle);
    every_order_of_a_plate(differ);
}

/// The sheet cut at every byte, and with bytes after its end.
fn every_length(differ: &mut Differ, sheet: &[u8]) {
    for length in 0..=sheet.len() {
        differ.compare(Input { call: Call::Check, sheet: &sheet[..length], order: &[], room: 0 });
    }
    for kind in 0..=255 {
        let mut longer = sheet.to_vec();
        longer.push(kind);
        differ.compare(Input { call: Call::Check, sheet: &longer, order: &[], room: 0 });
    }
}

fn every_kind_everywhere(differ: &mut Differ, draft: &Draft) {
    let mut bytes = draft.write();
    // A large sheet takes long to judge: there only the kinds up to 10, and the last.
    let kinds: Vec<u8> = match draft.links.len() {
        0..=100 => (0..=255).collect(),
        _ => (0..=10).chain([255]).collect(),
    };
    for place in draft.record_offsets() {
        let right = bytes[place];
        for &kind in &kinds {
            bytes[place] = kind;
            differ.compare(Input { call: Call::Check, sheet: &bytes, order: &[], room: 0 });
        }
        bytes[place] = right;
    }
}

fn every_link_missing(differ: &mut Differ, draft: &Draft) {
    let bytes = draft.write();
    let first = draft.end() - LINK_BYTES * draft.links.len();
    for link in 0..draft.links.len() {
        let mut shorter = bytes.clone();
        shorter.drain(first + LINK_BYTES * link..first + LINK_BYTES * (link + 1));
        for call in [Call::Check, Call::Next] {
            differ.compare(Input { call, sheet: &shorter, order: &[], room: shorter.len() });
        }
    }
}

fn every_byte_everywhere(differ: &mut Differ, sheet: &[u8]) {
    let mut bytes = sheet.to_vec();
    for place in 0..sheet.len() {
        for value in 0..=255 {
            bytes[place] = value;
            differ.compare(Input { call: Call::Next, sheet: &bytes, order: &[], room: sheet.len() });
        }
        bytes[place] = sheet[place];
    }
}

/// All rooms from 0 to a little more than is needed, for the calls that write.
fn every_room(differ: &mut Differ, draft: &Draft) {
    let sheet = draft.write();
    let order: Vec<u16> = match Sheet::read(&sheet) {
        Ok(content) => orders::right_order(&content, &mut Random::new(5)),
        Err(_) => Vec::new(),
    };
    for call in [Call::Next, Call::Play, Call::Frame, Call::House] {
        let needed = needed_room(call, &sheet, draft.nodes as usize, draft.links.len());
        for room in 0..=needed + 9 {
            differ.compare(Input { call, sheet: &sheet, order: &order, room });
        }
    }
}

/// All lists of up to four numbers from 0 to 6.
fn every_short_list(differ: &mut Differ, sheet: &[u8]) {
    for length in 0..=4u32 {
        for code in 0..7usize.pow(length) {
            let order: Vec<u16> = (0..length).map(|at| (code / 7usize.pow(at) % 7) as u16).collect();
            for call in [Call::Play, Call::Frame] {
                differ.compare(Input { call, sheet, order: &order, room: sheet.len() });
            }
        }
    }
}

/// All orders of the six links of plate A, and each of them with one number more.
fn every_order_of_a_plate(differ: &mut Differ) {
    let sheet = plates::plate_a().write();
    let mut order: Vec<u16> = (0..6).collect();
    every_order(&mut order, 6, &mut |order| {
        for extra in [None, Some(0), Some(5), Some(6), Some(65_535)] {
            let mut list = order.to_vec();
            list.extend(extra);
            for call in [Call::Play, Call::Frame] {
                differ.compare(Input { call, sheet: &sheet, order: &list, room: sheet.len() });
            }
        }
    });
}

/// Heap's way through all orders of the first `length` entries.
fn every_order(order: &mut Vec<u16>, length: usize, visit: &mut dyn FnMut(&[u16])) {
    if length <= 1 {
        return visit(order);
    }
    for place in 0..length {
        every_order(order, length - 1, visit);
        let other = if length.is_multiple_of(2) { place } else { 0 };
        order.swap(other, length - 1);
    }
}

#[cfg(test)]
mod tests {
    use super::*;
    use crate::calls::RIVAL;
    use crate::second;

    /// An implementation with one fault: the comparison must see each of them.
    fn faulty(change: fn(&mut Calls)) -> u64 {
        let mut calls = SECOND;
        calls.name = "faulty on purpose";
        change(&mut calls);
        let mut differ = Differ::new(&[calls]);
        differ.run_cases(20_000, 1);
        differ.differences
    }

    #[test]
    fn a_wrong_answer_is_seen() {
        fn wrong(sheet: &[u8]) -> Answer {
            second::check(sheet).map(|links| links + (links > 300) as usize)
        }
        assert!(faulty(|calls| calls.check = wrong) > 0);
    }

    #[test]
    fn a_byte_beyond_the_answer_is_seen() {
        fn wrong(sheet: &[u8], out: &mut [u8]) -> Answer {
            let answer = second::next(sheet, out)?;
            if let Some(byte) = out.get_mut(answer) {
                *byte = byte.wrapping_add(1);
            }
            Ok(answer)
        }
        assert!(faulty(|calls| calls.next = wrong) > 0);
    }

    #[test]
    fn a_write_on_refusal_is_seen() {
        fn wrong(sheet: &[u8], order: &[u16], out: &mut [u8]) -> Answer {
            let answer = second::frame(sheet, order, out);
            if let (Err(_), Some(byte)) = (answer, out.first_mut()) {
                *byte = byte.wrapping_add(1);
            }
            answer
        }
        assert!(faulty(|calls| calls.frame = wrong) > 0);
    }

    #[test]
    fn the_old_sheet_is_seen() {
        fn wrong(sheet: &[u8], order: &[u16], out: &mut [u8]) -> Answer {
            let answer = second::play(sheet, order, out)?;
            out[..answer].copy_from_slice(sheet);
            Ok(answer)
        }
        assert!(faulty(|calls| calls.play = wrong) > 0);
    }

    #[test]
    fn a_wrong_house_order_is_seen() {
        fn wrong(sheet: &[u8], out: &mut [u16]) -> Answer {
            let answer = second::house(sheet, out)?;
            out[answer - 2..answer].reverse();
            Ok(answer)
        }
        assert!(faulty(|calls| calls.house = wrong) > 0);
    }

    #[test]
    fn the_rival_is_the_second_to_the_last_byte() {
        let mut differ = Differ::new(&[RIVAL]);
        run_all_of_a_kind(&mut differ);
        let more = differ.inputs + 100_000;
        differ.run_cases(more, 1_000_000);
        assert_eq!(differ.differences, 0);
        assert_eq!(differ.unseen(), []);
    }
}
