//! Every short log over few messages: all orders, all repeats, all losses.

use super::{at, beyond};
use crate::check::{prompt, sender};
use crate::kinds::{lesson, Message, Pair, Progress};

/// All words of a length over some letters, which are messages or calls, one after the other.
pub struct Words<'a, X> {
    letters: &'a [X],
    places: Vec<usize>,
    ended: bool,
}

pub fn words<X>(letters: &[X], length: usize) -> Words<'_, X> {
    Words { letters, places: vec![0; length], ended: letters.is_empty() }
}

impl<X: Clone> Iterator for Words<'_, X> {
    type Item = Vec<X>;
    fn next(&mut self) -> Option<Self::Item> {
        if self.ended {
            return None;
        }
        let word = self.places.iter().map(|place| self.letters[*place].clone()).collect();
        // Counts up, the last place first.
        self.ended = true;
        for place in self.places.iter_mut().rev() {
            *place += 1;
            if *place < self.letters.len() {
                self.ended = false;
                break;
            }
            *place = 0;
        }
        Some(word)
    }
}

/// The four times of the smallest lattice that has two apart.
fn square() -> [Pair; 4] {
    [at(0, 0), at(0, 1), at(1, 0), at(1, 1)]
}

/// Its six frontiers.
fn frontiers() -> [Vec<Pair>; 6] {
    let [least, week, round, greatest] = square();
    [vec![], vec![least], vec![week], vec![round], vec![week, round], vec![greatest]]
}

/// Every statement from a frontier of the square to another that counts at most one change, and
/// every message of one of two changes. Where `inside`, only statements that pass question 6.
pub fn square_messages(inside: bool) -> Vec<Message<Pair>> {
    let mut messages = Vec::new();
    for lower in frontiers() {
        for upper in frontiers() {
            let counts = square().map(|time| vec![(time, 1)]);
            for counts in std::iter::once(vec![]).chain(counts) {
                let (lower, upper) = (lower.clone(), upper.clone());
                let statement = Progress { lower, upper, counts };
                if !inside || counts_inside(&statement) {
                    messages.push(Message::Progress(statement));
                }
            }
        }
    }
    for data in [lesson(0), lesson(1)] {
        messages.extend(square().map(|time| Message::Updates(vec![(data, time, 1)])));
    }
    messages
}

fn counts_inside(statement: &Progress<Pair>) -> bool {
    let Progress { lower, upper, counts } = statement;
    counts.iter().all(|(time, _)| beyond(lower, time) && !beyond(upper, time))
}

fn change(data: u64, time: Pair) -> Message<Pair> {
    Message::Updates(vec![(lesson(data), time, 1)])
}

fn says(lower: &[Pair], upper: &[Pair], counts: &[(Pair, usize)]) -> Message<Pair> {
    let (lower, upper, counts) = (lower.to_vec(), upper.to_vec(), counts.to_vec());
    Message::Progress(Progress { lower, upper, counts })
}

/// Messages of small honest senders, five from each.
pub fn small_senders() -> Vec<Vec<Message<Pair>>> {
    let [least, week, round, greatest] = square();
    let next = at(2, 0);
    let two = Message::Updates(vec![(lesson(1), least, 1), (lesson(2), least, 1)]);
    vec![
        // Two rounds and the end, one change in each.
        vec![
            change(1, least),
            change(2, round),
            says(&[least], &[round], &[(least, 1)]),
            says(&[round], &[next], &[(round, 1)]),
            says(&[next], &[], &[]),
        ],
        // The frontier splits in two, and comes together again.
        vec![
            change(1, least),
            Message::Updates(vec![(lesson(2), week, 1), (lesson(3), round, 1)]),
            change(4, week),
            says(&[least], &[week, round], &[(least, 1)]),
            says(&[week, round], &[greatest], &[(week, 2), (round, 1)]),
        ],
        // Two changes at one time, in one message and apart, and a time without any.
        vec![
            two,
            change(3, least),
            says(&[least], &[round], &[(least, 3)]),
            says(&[round], &[greatest], &[]),
            change(4, greatest),
        ],
        closing_weeks(),
    ]
}

/// Weeks close while the rounds stay open; then all ends at once.
fn closing_weeks() -> Vec<Message<Pair>> {
    let [least, week, _, greatest] = square();
    vec![
        change(1, least),
        change(2, greatest),
        says(&[least], &[week], &[(least, 1)]),
        says(&[week], &[greatest], &[]),
        says(&[greatest], &[], &[(greatest, 1)]),
    ]
}

/// The calls of a prompt reader that gets these messages.
pub fn prompt_letters(messages: &[Message<Pair>]) -> Vec<prompt::Call<Pair>> {
    let calls = messages.iter().map(prompt::Call::of);
    calls.chain([prompt::Call::Settle, prompt::Call::Heed]).collect()
}

/// Calls on a sender over the square, with posts that take nothing, one message or many.
pub fn sender_letters() -> Vec<sender::Call<Pair>> {
    use sender::Call::*;
    let [least, week, round, greatest] = square();
    vec![
        Record(vec![(lesson(1), least, 1)]),
        Record(vec![(lesson(2), greatest, 1), (lesson(3), week, 1)]),
        PumpChanges(1),
        Close(vec![week, round], 20),
        Close(vec![round], 0),
        Close(vec![greatest], 1),
        PumpStatements(0),
        PumpStatements(20),
        Finish(20),
    ]
}
