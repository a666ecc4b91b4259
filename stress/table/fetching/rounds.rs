//! How many rounds can end while a call waits. A round ends once all that was under way as it began has come, and a call that
//! waits without a lock was tried.
use super::search::every;
use super::spelling::{least, read, Spelling};
use super::world::{Setup, World};
use crate::steps::{rounds, Steps, ENDS_ROUND};
use std::collections::HashMap;

/// Worlds with a call that is followed and the marks of a round, in the order in which they were found.
#[derive(Default)]
struct Marked {
    numbers: HashMap<u64, u32>,
    words: Vec<u32>,
    ends: Vec<usize>,
}

impl Marked {
    fn add(&mut self, spelling: &Spelling) -> u32 {
        let next = self.ends.len() as u32;
        let number = *self.numbers.entry(spelling.hash()).or_insert(next);
        if number == next {
            self.words.extend_from_slice(spelling.words());
            self.ends.push(self.words.len());
        }
        number
    }

    fn words(&self, k: usize) -> &[u32] {
        let begin = if k == 0 { 0 } else { self.ends[k - 1] };
        &self.words[begin..self.ends[k]]
    }
}

/// Each world in which a call is in progress, at the begin of a round.
fn waiting(setup: &Setup) -> Marked {
    let mut marked = Marked::default();
    every(setup, &mut |world| {
        for asker in (0..world.many).filter(|me| world.nodes[*me as usize].call.is_some()) {
            let mut world = World { asker, ..*world };
            world.begin_round();
            marked.add(&least(setup, &world));
        }
    });
    marked
}

/// Whether a page has come that was fetched.
fn fetched(before: &World, after: &World) -> bool {
    let nodes = before.nodes().iter().zip(after.nodes());
    let mut entries = nodes.flat_map(|(before, after)| before.entries.iter().zip(&after.entries));
    entries.any(|(before, after)| before.is_fetch() && !after.is_locked())
}

/// How many worlds with a call that is followed there are, and the most rounds; none where there is no bound. Until a page has
/// come that was fetched, where that is asked for, else until the call has its reply.
pub fn most_rounds(setup: &Setup, until_fetched: bool) -> (usize, Option<u8>) {
    let mut marked = waiting(setup);
    let mut steps = Steps { begins: vec![0], others: Vec::new() };
    let mut k = 0;
    while k < marked.ends.len() {
        let world = read(setup, marked.words(k));
        world.moves(setup, &mut |mut after, _| {
            let is_over = after.nodes[after.asker as usize].call.is_none();
            if is_over || until_fetched && fetched(&world, &after) {
                return;
            }
            let ends = after.is_round_over();
            if ends {
                after.begin_round();
            }
            let to = marked.add(&least(setup, &after));
            steps.others.push(to | if ends { ENDS_ROUND } else { 0 });
        });
        steps.begins.push(steps.others.len() as u32);
        k += 1;
    }
    let many = marked.ends.len();
    (many, rounds(many, &steps.turned()).and_then(|rounds| rounds.into_iter().max()))
}
