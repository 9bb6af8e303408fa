//! Does a run find what it should? Each test makes our side wrong in one way, and wants a
//! difference, with a small log that shows it.

use compare::check::held::{log, Model, Replay};
use compare::generate::{random, Random};
use compare::kinds::{Message, Pair};
use compare::lines::file;
use compare::model;
use compare::smaller::smallest;
use compare::tally::Tally;

/// Replays another file than it was given.
struct Wrong(fn(&mut Message<Pair>));

impl Replay for Wrong {
    fn replay(&mut self, bytes: &[u8], out: &mut [u8]) -> i64 {
        let mut messages = model::replay::messages(bytes).unwrap();
        messages.iter_mut().for_each(self.0);
        Model.replay(&file(&messages), out)
    }
}

fn logs() -> Vec<Vec<Message<Pair>>> {
    let mut random = Random(7);
    let relayed = |random: &mut Random| {
        let sent = random::sent(random, 12);
        random::relayed(random, &sent)
    };
    (0..300).map(|_| relayed(&mut random)).collect()
}

/// The smallest log that shows the difference.
fn shown(ours: &mut dyn Replay) -> Option<Vec<Message<Pair>>> {
    let differs = |ours: &mut dyn Replay, x: &[_]| log(ours, x, &mut Tally::default()).is_err();
    let found = logs().into_iter().find(|x| differs(ours, x))?;
    Some(smallest(found, |x| differs(ours, x)))
}

#[test]
fn nothing_is_found_where_nothing_is_wrong() {
    assert_eq!(shown(&mut Model), None);
}

#[test]
fn counts_that_are_too_low() {
    let lower = |message: &mut Message<Pair>| {
        if let Message::Progress(s) = message {
            s.counts.iter_mut().filter(|(_, n)| *n == 1).for_each(|(_, n)| *n = 0);
        }
    };
    let shown = shown(&mut Wrong(lower)).unwrap();
    assert_eq!(shown.len(), 1, "{shown:?}");
}

#[test]
fn changes_that_are_lost() {
    let lose = |message: &mut Message<Pair>| {
        if let Message::Updates(changes) = message {
            changes.clear();
        }
    };
    let shown = shown(&mut Wrong(lose)).unwrap();
    assert!(shown.len() <= 2, "{shown:?}");
}

#[test]
fn an_upper_list_without_its_last_time() {
    let cut = |message: &mut Message<Pair>| {
        if let Message::Progress(s) = message {
            s.upper.pop();
        }
    };
    assert_eq!(shown(&mut Wrong(cut)).unwrap().len(), 1);
}

#[test]
fn a_listing_in_another_order_is_no_listing_of_ours() {
    struct Backwards;
    impl Replay for Backwards {
        fn replay(&mut self, bytes: &[u8], out: &mut [u8]) -> i64 {
            let length = Model.replay(bytes, out);
            let text = String::from_utf8(out[..length.max(0) as usize].to_vec()).unwrap();
            let mut lines: Vec<_> = text.split_inclusive('\n').collect();
            // The two times of a frontier change places.
            if let Some(i) = lines.windows(2).position(|x| x.iter().all(|y| y.starts_with('F'))) {
                lines.swap(i, i + 1);
            }
            out[..text.len()].copy_from_slice(lines.concat().as_bytes());
            length
        }
    }
    assert!(shown(&mut Backwards).is_some());
}
