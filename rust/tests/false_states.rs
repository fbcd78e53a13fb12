//! The program `false_states` against the second implementation: a word is stored that its node
//! would not have sent, and what the nodes then work out is compared.

mod common;

use common::{printed, root};
use hjerringsel::differ::hex;
use hjerringsel::draft::Draft;
use hjerringsel::generate;
use hjerringsel::plates::{plate_a, plate_with_loop};
use hjerringsel::random::Random;
use hjerringsel::second::{deliver, marginal_delay, new_row, Message, Sheet, State, Status};
use std::collections::BTreeMap;
use std::fs;

const CASES: u64 = 1_200;
const MOST_DELAY: u64 = 63 * 1_048_576;
const NO_SUCH_CASE: &str = "no such case\n";

/// What is asked of a stored word.
#[derive(Clone, Copy, PartialEq, Eq, Debug)]
enum Question {
    /// With nothing else delivered, the delivery on this link: what does it carry?
    Carries(usize),
    /// With everything delivered: every new fraction.
    Rows,
}

#[derive(Clone, Copy, Debug)]
struct Case {
    question: Question,
    /// The link that the word is stored on.
    link: usize,
    word: Message,
}

impl Case {
    /// The case as the program reads it.
    fn write(&self, sheet: &[u8]) -> Vec<u8> {
        let (number, sends) = match self.question {
            Question::Carries(sends) => (1, sends),
            Question::Rows => (2, 0),
        };
        let mut bytes = vec![number];
        bytes.extend_from_slice(&(self.link as u16).to_be_bytes());
        bytes.extend_from_slice(&(self.word.delay as u32).to_be_bytes());
        bytes.push(self.word.blocked as u8);
        bytes.extend_from_slice(&(sends as u16).to_be_bytes());
        bytes.extend_from_slice(sheet);
        bytes
    }

    /// What is due, by the second implementation.
    fn due(&self, sheet: &Sheet) -> String {
        match self.question {
            Question::Carries(sends) => {
                let word = self.sent(sheet, sends);
                format!("carries {} {}\n", word.delay, word.blocked as u8)
            }
            Question::Rows => {
                let rows = self.rows(sheet);
                rows.iter().map(|fraction| format!("{fraction}\n")).collect()
            }
        }
    }

    /// The word that the delivery on a link stores, where only this case's word was delivered.
    fn sent(&self, sheet: &Sheet, sends: usize) -> Message {
        let mut state = alone(sheet, self.link, self.word);
        let word = state.word_of(sheet, sheet.links[sends].from);
        let word = word.expect("the case was made for a node that can work its word out");
        if deliver(sheet, &mut state, sends) {
            assert_eq!(state.carried(sends), Some(word));
        }
        word
    }

    /// All new fractions, in the order of the links.
    fn rows(&self, sheet: &Sheet) -> Vec<u32> {
        let mut carried = everything(sheet);
        carried[self.link] = Some(self.word);
        let state = State::holding(sheet, carried);
        let row = |node| new_row(sheet, &state, node).expect("every node heard its neighbours");
        (0..sheet.nodes).flat_map(row).collect()
    }
}

/// Only this word was delivered.
fn alone(sheet: &Sheet, link: usize, word: Message) -> State {
    let mut carried = vec![None; sheet.links.len()];
    carried[link] = Some(word);
    State::holding(sheet, carried)
}

/// What the links carry once all messages were delivered, each time the lowest that waits.
fn everything(sheet: &Sheet) -> Vec<Option<Message>> {
    let mut state = State::new(sheet);
    while let Some(link) = state.lowest_waiting(sheet) {
        assert!(deliver(sheet, &mut state, link));
    }
    (0..sheet.links.len()).map(|link| state.carried(link)).collect()
}

fn word_on(carried: &[Option<Message>], link: usize) -> Message {
    carried[link].expect("everything was delivered")
}

/// Links whose word matters to their far node. For its own word: it sends to their near node
/// alone, as the node next to the destination does. For its row: it sends, and has a choice.
fn telling(sheet: &Sheet, question: u8) -> Vec<usize> {
    let tells = |&link: &usize| {
        let hearer = sheet.links[link].to;
        match question {
            1 => sheet.flowing_out(hearer).eq([sheet.opposite(link)]),
            _ => hearer != sheet.destination && sheet.links_out(hearer).count() > 1,
        }
    };
    (0..sheet.links.len()).filter(tells).collect()
}

/// A delay at the ends of its range, the true one or beside it, one that makes a tie, or any.
fn some_delay(sheet: &Sheet, carried: &[Option<Message>], link: usize, random: &mut Random) -> u64 {
    let own = word_on(carried, link).delay;
    let delay = match random.below(8) {
        0 => 0,
        1 => MOST_DELAY,
        2 => own,
        3 => own + 1,
        4 | 5 => tying_delay(sheet, carried, link, random).unwrap_or(own),
        _ => random.of_any_size(26),
    };
    delay.min(MOST_DELAY)
}

/// The delay by which the hearer's link back costs it just what some other link does.
fn tying_delay(
    sheet: &Sheet,
    carried: &[Option<Message>],
    link: usize,
    random: &mut Random,
) -> Option<u64> {
    let line = |link: usize| marginal_delay(sheet.links[link].load_step);
    let back = sheet.opposite(link);
    let others: Vec<usize> =
        sheet.links_out(sheet.links[link].to).filter(|&other| other != back).collect();
    if others.is_empty() {
        return None;
    }
    let other = random.pick(&others);
    let cost = line(other) + word_on(carried, sheet.opposite(other)).delay;
    cost.checked_sub(line(back))
}

/// Of every shape; or with a traffic and a step by which rows change often.
fn some_draft(random: &mut Random) -> Draft {
    if random.once_in(2) {
        return generate::right_draft(random);
    }
    let nodes = random.within(3, 64);
    generate::right_draft_of(nodes, 5 * nodes, random)
}

fn some_case(sheet: &Sheet, random: &mut Random) -> Case {
    let number = random.within(1, 2) as u8;
    let telling = telling(sheet, number);
    let any = telling.is_empty() || random.once_in(4);
    let link = if any { random.below(sheet.links.len()) } else { random.pick(&telling) };
    let delay = some_delay(sheet, &everything(sheet), link, random);
    let word = Message { delay, blocked: random.once_in(3) };
    let question = match number {
        1 => Question::Carries(some_sender(sheet, &alone(sheet, link, word), link, random)),
        _ => Question::Rows,
    };
    Case { question, link, word }
}

/// A link to deliver on, mostly one of the node that heard the stored word. A node that has yet
/// to hear one that it sends to has no word in the second implementation, so none of its links.
fn some_sender(sheet: &Sheet, state: &State, stored: usize, random: &mut Random) -> usize {
    let can_send = |&link: &usize| state.status(sheet, sheet.links[link].from) != Status::Unready;
    let of_hearer = |&link: &usize| sheet.links[link].from == sheet.links[stored].to;
    if can_send(&stored) && random.once_in(4) {
        return stored;
    }
    let all: Vec<usize> = (0..sheet.links.len()).filter(can_send).collect();
    let hearers: Vec<usize> = all.iter().copied().filter(of_hearer).collect();
    let any = hearers.is_empty() || random.once_in(5);
    random.pick(if any { &all } else { &hearers })
}

/// What a case brings up: each must come up often.
fn kinds(sheet: &Sheet, case: &Case) -> [(&'static str, bool); 11] {
    let Case { question, link, word } = *case;
    let carried = everything(sheet);
    let truly = Case { word: word_on(&carried, link), ..*case };
    let changes = case.due(sheet) != truly.due(sheet);
    let rows = question == Question::Rows;
    let sent = match question {
        Question::Carries(sends) => Some(case.sent(sheet, sends)),
        Question::Rows => None,
    };
    let hearer = sheet.links[link].to;
    let back = sheet.opposite(link);
    let cost = |link: usize, delay: u64| marginal_delay(sheet.links[link].load_step) + delay;
    let ties = |other: usize| {
        let delay = word_on(&carried, sheet.opposite(other)).delay;
        other != back && cost(other, delay) == cost(back, word.delay)
    };
    [
        ("another word is sent", !rows && changes),
        ("a blocked word is sent", sent.is_some_and(|word| word.blocked)),
        ("the link sends again", question == Question::Carries(link)),
        ("another row is taken", rows && changes),
        ("the word is marked", word.blocked),
        ("the hearer has no traffic", sheet.traffic[hearer] == 0),
        ("the delay is 0", word.delay == 0),
        ("the delay is the most", word.delay == MOST_DELAY),
        ("two links cost the same", sheet.links_out(hearer).any(ties)),
        ("two nodes", sheet.nodes == 2),
        ("more than 40 nodes", sheet.nodes > 40),
    ]
}

#[test]
fn cases_from_seeds_are_answered_as_by_the_second_implementation() {
    let (mut seen, mut rows) = (BTreeMap::new(), 0);
    for seed in 1..=CASES {
        let mut random = Random::new(seed);
        let bytes = some_draft(&mut random).write();
        let sheet = Sheet::read(&bytes).expect("a right draft");
        let case = some_case(&sheet, &mut random);
        let input = case.write(&bytes);
        let answer = printed("false_states", &input);
        assert_eq!(answer, case.due(&sheet), "seed {seed}, {case:?}, input {}", hex(&input));
        rows += (case.question == Question::Rows) as u64;
        for (kind, holds) in kinds(&sheet, &case) {
            *seen.entry(kind).or_insert(0) += holds as u64;
        }
    }
    assert!(rows >= 400 && CASES - rows >= 400, "{rows} of {CASES} cases ask for rows");
    assert!(seen.values().all(|&count| count >= 10), "{seen:?}");
}

#[test]
fn what_is_no_case_is_not_answered() {
    let bytes = plate_a().write();
    let word = Message { delay: 100, blocked: false };
    let sent = Case { question: Question::Carries(3), link: 0, word };
    let rows = Case { question: Question::Rows, link: 5, word };
    for case in [sent, rows] {
        let right = case.write(&bytes);
        let changed = |place: usize, values: &[u8]| {
            let mut input = right.clone();
            input[place..place + values.len()].copy_from_slice(values);
            input
        };
        let longer = |length: usize| {
            let mut input = right.clone();
            input.resize(length, 0);
            input
        };
        let mut wrong: Vec<Vec<u8>> = (1..right.len()).map(|cut| right[..cut].to_vec()).collect();
        wrong.extend([0, 3, 9, 255].map(|question| changed(0, &[question])));
        wrong.extend([6u16, 256, 65_535].map(|link| changed(1, &link.to_be_bytes())));
        let beyond = [MOST_DELAY as u32 + 1, 64 * 1_048_576, u32::MAX];
        wrong.extend(beyond.map(|delay| changed(3, &delay.to_be_bytes())));
        wrong.extend([2, 255].map(|mark| changed(7, &[mark])));
        wrong.push(case.write(&plate_with_loop().write()));
        wrong.extend([right.len() + 1, 8_192, 9_000].map(longer));
        for input in wrong {
            assert_eq!(printed("false_states", &input), NO_SUCH_CASE, "input {}", hex(&input));
        }
        // The link that sends is read for the first question alone.
        let sheet = Sheet::read(&bytes).expect("plate A is right");
        let input = changed(8, &6u16.to_be_bytes());
        let due = if case.question == Question::Rows { case.due(&sheet) } else { NO_SUCH_CASE.into() };
        assert_eq!(printed("false_states", &input), due, "input {}", hex(&input));
    }
}

#[test]
fn both_implementations_give_the_figures_of_document_01() {
    let bytes = plate_a().write();
    let sheet = Sheet::read(&bytes).expect("plate A is right");
    let link = |from, to| sheet.link_between(from, to).expect("plate A has all links");
    let word = Message { delay: 100, blocked: false };
    let sent = Case { question: Question::Carries(link(1, 2)), link: link(0, 1), word };
    let rows = Case { question: Question::Rows, link: link(2, 1), word };
    for (case, due) in [(sent, "carries 356 0\n"), (rows, "0\n0\n61056\n4480\n65536\n0\n")] {
        assert_eq!(case.due(&sheet), due);
        assert_eq!(printed("false_states", &case.write(&bytes)), due);
    }
    let shown = root().join("crates").join("false_states").join("stdout");
    assert_eq!(printed("false_states", &[]), fs::read_to_string(shown).expect("what it shows"));
}
