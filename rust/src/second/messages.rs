//! The round as messages: a state that keeps what each link's message carried, and the one
//! function that delivers. All of it holds for false stored values too.

use super::rules;
use super::sheet::Sheet;

/// What a message carries: the sender's MD and its blocked mark.
#[derive(Clone, Copy, PartialEq, Eq, Debug)]
pub struct Message {
    pub delay: u64,
    pub blocked: bool,
}

/// Status of a node.
#[derive(Clone, Copy, PartialEq, Eq, Debug)]
pub enum Status {
    /// It has yet to hear a node it has a flowing link to.
    Unready,
    /// It has heard every node it has a flowing link to.
    Ready,
    /// It has heard all its neighbours.
    Finished,
}

impl Status {
    pub fn number(self) -> u8 {
        match self {
            Status::Unready => 0,
            Status::Ready => 1,
            Status::Finished => 2,
        }
    }
}

/// Deliveries made, and nodes finished.
#[derive(Clone, Copy, PartialEq, Eq, Debug)]
pub struct Tally {
    pub deliveries: usize,
    pub finished: usize,
}

/// For each link what its message carried, if it was delivered; and the tally.
#[derive(Clone, PartialEq, Eq, Debug)]
pub struct State {
    carried: Vec<Option<Message>>,
    tally: Tally,
}

impl State {
    /// Nothing delivered.
    pub fn new(sheet: &Sheet) -> State {
        State::holding(sheet, vec![None; sheet.links.len()])
    }

    /// Any state, true or false, with the tally that is right for it.
    pub fn holding(sheet: &Sheet, carried: Vec<Option<Message>>) -> State {
        assert_eq!(carried.len(), sheet.links.len(), "one entry a link");
        let mut state = State { carried, tally: Tally { deliveries: 0, finished: 0 } };
        let is_finished = |&node: &usize| state.status(sheet, node) == Status::Finished;
        let finished = (0..sheet.nodes).filter(is_finished).count();
        let deliveries = state.carried.iter().flatten().count();
        state.tally = Tally { deliveries, finished };
        state
    }

    pub fn tally(&self) -> Tally {
        self.tally
    }

    /// What is stored on a link.
    pub fn carried(&self, link: usize) -> Option<Message> {
        self.carried[link]
    }

    /// What the near node of a link has heard from the far one: it came on the opposite.
    fn heard(&self, sheet: &Sheet, link: usize) -> Option<Message> {
        self.carried[sheet.opposite(link)]
    }

    pub fn status(&self, sheet: &Sheet, node: usize) -> Status {
        let has_heard = |link: usize| self.heard(sheet, link).is_some();
        if sheet.links_out(node).all(has_heard) {
            Status::Finished
        } else if sheet.flowing_out(node).all(has_heard) {
            Status::Ready
        } else {
            Status::Unready
        }
    }

    /// MD and mark that a node works out from what it has heard; nothing at status 0.
    pub fn word_of(&self, sheet: &Sheet, node: usize) -> Option<Message> {
        if self.status(sheet, node) == Status::Unready {
            return None;
        }
        let mut heard = |link| self.heard(sheet, link).expect("it flows, so it was heard");
        let delay = rules::delay(sheet, node, &mut heard);
        let blocked = rules::blocked(sheet, node, &mut heard);
        Some(Message { delay, blocked })
    }

    /// Whether the message on a link waits.
    pub fn waits(&self, sheet: &Sheet, link: usize) -> bool {
        let sender = self.status(sheet, sheet.links[link].from);
        self.carried[link].is_none() && may_send(sender, sheet.links[link].flows())
    }

    /// The lowest link whose message waits.
    pub fn lowest_waiting(&self, sheet: &Sheet) -> Option<usize> {
        // The links come row by row, so each sender's status is asked for once.
        (0..sheet.nodes).find_map(|node| {
            let status = self.status(sheet, node);
            sheet.links_out(node).find(|&link| {
                self.carried[link].is_none() && may_send(status, sheet.links[link].flows())
            })
        })
    }
}

fn may_send(sender: Status, flows: bool) -> bool {
    sender == Status::Finished || (sender == Status::Ready && !flows)
}

/// Delivers the message on a link: stores what its sender works out, and amends the tally.
/// Answers false, and changes nothing, when the message does not wait.
pub fn deliver(sheet: &Sheet, state: &mut State, link: usize) -> bool {
    if !state.waits(sheet, link) {
        return false;
    }
    let word = state.word_of(sheet, sheet.links[link].from);
    state.carried[link] = Some(word.expect("a sender has status 1 at least"));
    state.tally.deliveries += 1;
    if state.status(sheet, sheet.links[link].to) == Status::Finished {
        // Only this delivery can have finished the receiver: it was the last to come in.
        state.tally.finished += 1;
    }
    true
}

/// The new fractions out of a node by what it has heard; nothing before status 2.
pub fn new_row(sheet: &Sheet, state: &State, node: usize) -> Option<Vec<u32>> {
    if state.status(sheet, node) != Status::Finished {
        return None;
    }
    let mut heard = |link| state.heard(sheet, link).expect("all neighbours were heard");
    Some(rules::new_row(sheet, node, &mut heard))
}

#[cfg(test)]
mod tests {
    use super::*;
    use crate::plates;
    use crate::second::Calculation;

    fn plate_a() -> Sheet {
        Sheet::read(&plates::plate_a().write()).expect("plate A is right")
    }

    fn unmarked(delay: u64) -> Option<Message> {
        Some(Message { delay, blocked: false })
    }

    /// Plate A with everything delivered and the calculation's values stored.
    fn all_carried(sheet: &Sheet) -> Vec<Option<Message>> {
        let mut calculation = Calculation::new(sheet);
        sheet.links.iter().map(|link| Some(calculation.word_of(link.from))).collect()
    }

    #[test]
    fn a_false_delay_goes_on_as_356() {
        let sheet = plate_a();
        let link = |from, to| sheet.link_between(from, to).unwrap();
        let mut carried = vec![None; 6];
        carried[link(0, 1)] = unmarked(100);
        let mut state = State::holding(&sheet, carried);
        let before = state.clone();
        assert!(deliver(&sheet, &mut state, link(1, 2)));
        assert_eq!(state.carried(link(1, 2)), unmarked(356));
        for other in (0..6).filter(|&other| other != link(1, 2)) {
            assert_eq!(state.carried(other), before.carried(other));
        }
        assert_eq!(state.tally(), Tally { deliveries: 2, finished: 0 });
    }

    #[test]
    fn a_false_delay_makes_the_row_61056_and_4480() {
        let sheet = plate_a();
        let mut carried = all_carried(&sheet);
        carried[sheet.link_between(2, 1).unwrap()] = unmarked(100);
        let state = State::holding(&sheet, carried);
        assert_eq!(state.tally(), Tally { deliveries: 6, finished: 3 });
        assert_eq!(new_row(&sheet, &state, 1), Some(vec![61_056, 4_480]));
    }

    #[test]
    fn a_true_state_makes_the_row_of_the_calculation() {
        let sheet = plate_a();
        let state = State::holding(&sheet, all_carried(&sheet));
        assert_eq!(new_row(&sheet, &state, 1), Some(vec![58_368, 7_168]));
    }

    #[test]
    fn no_row_and_no_delivery_before_the_time() {
        let sheet = plate_a();
        let mut state = State::new(&sheet);
        assert_eq!(new_row(&sheet, &state, 0), None);
        assert!(!deliver(&sheet, &mut state, sheet.link_between(1, 0).unwrap()));
        assert_eq!(state, State::new(&sheet));
    }

    #[test]
    fn the_tally_is_always_the_right_one() {
        let sheet = plate_a();
        let mut state = State::new(&sheet);
        for link in [0, 1, 3, 4, 5, 2] {
            assert!(deliver(&sheet, &mut state, link));
            assert_eq!(state, State::holding(&sheet, state.carried.clone()));
        }
        assert_eq!(state.tally(), Tally { deliveries: 6, finished: 3 });
    }
}
