//! The round as a calculation: a recursion along flowing links that remembers what it found.

use super::messages::Message;
use super::rules;
use super::sheet::Sheet;

pub struct Calculation<'a> {
    sheet: &'a Sheet,
    /// Delay and mark of each node, once asked for.
    known: Vec<Option<Message>>,
}

impl<'a> Calculation<'a> {
    pub fn new(sheet: &'a Sheet) -> Calculation<'a> {
        Calculation { sheet, known: vec![None; sheet.nodes] }
    }

    /// MD of a node and whether it is blocked. It ends because the sheet has no loop.
    pub fn word_of(&mut self, node: usize) -> Message {
        if let Some(word) = self.known[node] {
            return word;
        }
        let sheet = self.sheet;
        let delay = rules::delay(sheet, node, &mut |link| self.word_of(sheet.links[link].to));
        let blocked = rules::blocked(sheet, node, &mut |link| self.word_of(sheet.links[link].to));
        let word = Message { delay, blocked };
        self.known[node] = Some(word);
        word
    }

    /// The new fractions out of a node.
    pub fn new_row(&mut self, node: usize) -> Vec<u32> {
        let sheet = self.sheet;
        rules::new_row(sheet, node, &mut |link| self.word_of(sheet.links[link].to))
    }
}
