//! The differences of docs/DIFFERENCES.md: the smallest input of each, on the Rust and on the
//! model of our calls. Times are rounds or pairs, A and B different data.

use compare::generate::{apart, at};
use compare::kinds::{lesson, sorted, Lesson, Message, Pair, Progress, Time};
use compare::model;
use compare::rust;
use std::panic::{catch_unwind, AssertUnwindSafe};

fn a() -> Lesson {
    lesson(1)
}
fn b() -> Lesson {
    lesson(2)
}

fn s<T: Time>(lower: &[T], upper: &[T], counts: &[(T, usize)]) -> Progress<T> {
    Progress { lower: lower.to_vec(), upper: upper.to_vec(), counts: counts.to_vec() }
}

fn says<T: Time>(lower: &[T], upper: &[T], counts: &[(T, usize)]) -> Message<T> {
    Message::Progress(s(lower, upper, counts))
}

fn change<T: Time>(data: Lesson, time: T) -> Message<T> {
    Message::Updates(vec![(data, time, 1)])
}

type Both<T> = (rust::held::Held<T>, model::held::Held<T>);

fn held<T: Time>() -> Both<T> {
    (rust::held::Held::fresh(), model::held::Held::fresh())
}

#[test]
fn a_change_twice_in_one_message() {
    let (mut rust, mut ours) = held::<u64>();
    let twice = Message::Updates(vec![(a(), 0, 1), (a(), 0, 1)]);
    let two = says(&[0], &[1], &[(0, 2)]);
    assert_eq!(rust.feed(twice.clone()), None);
    assert_eq!(rust.feed(two.clone()), Some((vec![(a(), 0, 1)], vec![1])));
    assert_eq!(rust.feed(change(b(), 0)), None);
    assert_eq!(ours.feed(&twice), Ok(None));
    assert_eq!(ours.drops(), 1);
    assert_eq!(ours.feed(&two), Ok(None));
    let both = vec![(a(), 0, 1), (b(), 0, 1)];
    assert_eq!(ours.feed(&change(b(), 0)), Ok(Some((both, vec![1]))));
}

#[test]
fn counts_outside_the_statement() {
    let (mut rust, mut ours) = held::<u64>();
    let outside = says(&[0], &[3], &[(3, 1)]);
    assert_eq!(rust.feed(outside.clone()), Some((vec![], vec![3])));
    assert_eq!(rust.feed(says(&[3], &[4], &[(3, 1)])), None);
    assert_eq!(rust.feed(change(a(), 3)), None);
    let both = rust.feed(change(b(), 3)).unwrap();
    assert_eq!((sorted(&both.0), both.1), (vec![(a(), 3, 1), (b(), 3, 1)], vec![4]));
    assert_eq!(ours.feed(&outside), Err(6));
}

#[test]
fn a_time_counted_twice_in_one_statement() {
    let (mut rust, mut ours) = held::<u64>();
    let counted = says(&[0], &[1], &[(0, 1), (0, 1)]);
    assert_eq!(rust.feed(counted.clone()), None);
    assert_eq!(rust.feed(change(a(), 0)), None);
    assert_eq!(rust.feed(change(b(), 0)).unwrap().1, vec![1]);
    assert_eq!(ours.feed(&counted), Err(7));
}

#[test]
fn large_counts() {
    let (mut rust, mut ours) = held::<u64>();
    let large = says(&[0], &[1], &[(0, 1_000_001)]);
    assert_eq!(rust.feed(large.clone()), None);
    assert_eq!(ours.feed(&large), Err(5));
    // From 2^63 on the Rust reads a count as negative, so that nothing is awaited.
    let (mut rust, _) = held::<u64>();
    let huge = says(&[0], &[1], &[(0, 1 << 63)]);
    assert_eq!(rust.feed(huge), Some((vec![], vec![1])));
}

#[test]
fn long_messages() {
    let (mut rust, mut ours) = held::<u64>();
    let long = Message::Updates((0..65).map(|i| (lesson(i), 0, 1)).collect());
    assert_eq!(rust.feed(long.clone()), None);
    assert_eq!(rust.feed(says(&[0], &[1], &[(0, 65)])).unwrap().0.len(), 65);
    assert_eq!(ours.feed(&long), Err(2));
}

#[test]
fn many_changes_held() {
    let (mut rust, mut ours) = held::<u64>();
    let mut last = Ok(None);
    for i in 0..2_049 {
        assert_eq!(last, Ok(None));
        assert_eq!(rust.feed(change(lesson(i), 0)), None);
        last = ours.feed(&change(lesson(i), 0));
    }
    assert_eq!(last, Err(9));
    assert_eq!(rust.feed(says(&[0], &[1], &[(0, 2_049)])).unwrap().0.len(), 2_049);
}

#[test]
fn many_statements_waiting() {
    let (mut rust, mut ours) = held::<u64>();
    let mut last = Ok(None);
    for i in 1..=33 {
        assert_eq!(last, Ok(None));
        assert_eq!(rust.feed(says(&[i], &[i + 1], &[])), None);
        last = ours.feed(&says(&[i], &[i + 1], &[]));
    }
    assert_eq!(last, Err(10));
    assert_eq!(rust.feed(says(&[0], &[1], &[])), Some((vec![], vec![34])));
    assert_eq!(ours.feed(&says(&[0], &[1], &[])), Ok(Some((vec![], vec![33]))));
}

#[test]
fn many_counts() {
    let (mut rust, mut ours) = held::<u64>();
    for i in 0..1_024 {
        assert_eq!(rust.feed(change(a(), i)), None);
        assert_eq!(ours.feed(&change(a(), i)), Ok(None));
    }
    assert_eq!(rust.feed(change(a(), 1_024)), None);
    assert_eq!(ours.feed(&change(a(), 1_024)), Err(11));
}

#[test]
fn many_times_in_a_frontier() {
    let (mut rust, mut ours) = held::<Pair>();
    let counts: Vec<_> = apart(32, 0).iter().map(|time| (*time, 1)).collect();
    let statement = says(&[at(0, 0)], &[at(40, 0)], &counts);
    assert_eq!(rust.feed(statement.clone()).unwrap().1.len(), 33);
    assert_eq!(ours.feed(&statement), Err(12));
}

#[test]
fn many_times_on_the_way() {
    let (mut rust, mut ours) = held::<Pair>();
    let mut counts: Vec<_> = apart(32, 1).iter().map(|time| (*time, 1)).collect();
    counts.push((at(0, 1), 1));
    let statement = says(&[at(0, 0)], &[at(40, 0)], &counts);
    assert_eq!(rust.feed(statement.clone()).unwrap().1.len(), 2);
    assert_eq!(ours.feed(&statement), Err(12));
}

#[test]
fn statements_that_can_do_nothing_more() {
    let (mut rust, mut ours) = held::<u64>();
    for statement in [says(&[1], &[0], &[]), says(&[0], &[0], &[])] {
        assert_eq!(rust.feed(statement.clone()), None);
        assert_eq!(ours.feed(&statement), Ok(None));
    }
    assert_eq!(rust.feed(says(&[0], &[2], &[])), Some((vec![], vec![2])));
    assert_eq!(ours.feed(&says(&[0], &[2], &[])), Ok(Some((vec![], vec![2]))));
}

#[test]
fn another_amount_is_another_change_when_held() {
    let (mut rust, mut ours) = held::<u64>();
    for amount in [1, 2] {
        let message = Message::Updates(vec![(a(), 0, amount)]);
        assert_eq!(rust.feed(message.clone()), None);
        assert_eq!(ours.feed(&message), Ok(None));
    }
    assert_eq!(rust.feed(says(&[0], &[1], &[(0, 2)])).unwrap().0.len(), 2);
    assert_eq!(ours.feed(&says(&[0], &[1], &[(0, 2)])).unwrap().unwrap().0.len(), 2);
}

#[test]
fn a_refusal_in_place_of_a_panic() {
    let (mut rust, mut ours) = (rust::prompt::Prompt::fresh(), model::prompt::Prompt::fresh());
    assert_eq!(rust.sift(&[(a(), 0u64, 1)]), Some(vec![(a(), 0, 1)]));
    assert_eq!(ours.sift(&[(a(), 0, 1)]), Ok(vec![(a(), 0, 1)]));
    assert!(catch_unwind(AssertUnwindSafe(|| rust.sift(&[(a(), 0, 2)]))).is_err());
    assert_eq!(ours.sift(&[(a(), 0, 2)]), Err(8));
}

#[test]
fn a_change_twice_is_shipped_once() {
    let (mut rust, mut ours) = (rust::prompt::Prompt::fresh(), model::prompt::Prompt::fresh());
    let twice = [(a(), 0u64, 1), (a(), 0, 1)];
    assert_eq!(rust.sift(&twice), Some(vec![(a(), 0, 1)]));
    assert_eq!(rust.waiting_counts(), [(0, -1)]);
    assert_eq!(ours.sift(&twice), Ok(vec![(a(), 0, 1)]));
    assert_eq!(ours.waiting_counts(), [(0, -1)]);
}

#[test]
fn after_the_empty_frontier() {
    let (mut rust, mut ours) = (rust::prompt::Prompt::fresh(), model::prompt::Prompt::fresh());
    assert!(rust.note(&s(&[0u64], &[], &[])));
    assert_eq!(rust.settle(), []);
    rust.heed();
    assert_eq!(rust.sift(&[(a(), 0, 1)]), None);
    assert!(!rust.note(&s(&[0], &[1], &[])));
    ours.note(&s(&[0u64], &[], &[])).unwrap();
    assert_eq!(ours.settle(), Ok(vec![]));
    ours.heed();
    assert_eq!(ours.sift(&[(a(), 0, 1)]), Ok(vec![]));
    assert_eq!(ours.note(&s(&[0], &[1], &[])), Ok(()));
}

#[test]
fn a_put_off_statement() {
    let mut rust = rust::sender::Sender::fresh();
    rust.record(&[(a(), 4u64, 1)]);
    assert_eq!(rust.close(&[], 0), (true, Some(rust::sender::WAIT)));
    // The frontier cannot move any more, and the statement is never offered again.
    assert_eq!(rust.pump_statements(20), (true, None));
    assert_eq!(rust.statements.borrow().taken.len(), 0);
    let (mut ours, mut taken) = (model::sender::Sender::fresh(), Vec::new());
    ours.record(&[(a(), 4u64, 1)]).unwrap();
    ours.finish().unwrap();
    assert_eq!(model::sender::pump(&mut ours.statements, &mut taken, 0, true), (true, true));
    assert_eq!(model::sender::pump(&mut ours.statements, &mut taken, 20, true), (false, false));
    assert_eq!(taken, [says(&[0], &[], &[(4, 1)])]);
}

#[test]
fn a_close_that_does_not_move_the_frontier() {
    let (mut rust, mut ours) = (rust::sender::Sender::fresh(), model::sender::Sender::fresh());
    assert_eq!(rust.close(&[0u64], 20), (false, None));
    assert_eq!(rust.statements.borrow().taken.len(), 0);
    assert_eq!(ours.close(&[0u64]), Err(4));
}

#[test]
fn the_sender_of_the_worked_deliveries() {
    let (mut rust, mut ours) = (rust::sender::Sender::fresh(), model::sender::Sender::fresh());
    rust.record(&[(a(), 4u64, 1)]);
    rust.close(&[5], 20);
    assert_eq!(rust.statements.borrow().taken, [says(&[0], &[5], &[(4, 1)])]);
    ours.record(&[(a(), 4u64, 1)]).unwrap();
    ours.close(&[5]).unwrap();
    assert_eq!(ours.statements, [says(&[0], &[5], &[(4, 1)])]);
    assert_eq!(ours.record(&[(b(), 4, 1)]), Err(3));
    assert_eq!(ours.close(&[5]), Err(4));
}

#[test]
fn a_post_that_is_gone() {
    let mut rust = rust::sender::Sender::fresh();
    rust.record(&[(a(), 0u64, 1)]);
    rust.lose_posts();
    assert_eq!(rust.run_changes(), (false, None));
}

#[test]
fn a_statement_that_prompt_readers_keep_idle() {
    let (mut rust, mut ours) = (rust::prompt::Prompt::fresh(), model::prompt::Prompt::fresh());
    for statement in [s(&[1u64], &[0], &[]), s(&[0], &[2], &[])] {
        assert!(rust.note(&statement));
        ours.note(&statement).unwrap();
    }
    assert_eq!((rust.settle(), ours.settle()), (vec![2], Ok(vec![2])));
}

#[test]
fn more_than_a_sender_takes() {
    let changes = |number: u64, times: u64| -> Vec<_> {
        (0..number).map(|i| (lesson(i), i % times, 1)).collect()
    };
    let taken = |records: &[Vec<_>]| {
        let mut rust = rust::sender::Sender::fresh();
        records.iter().for_each(|changes| rust.record(changes));
        rust.pump_changes(100);
        let taken = rust.changes.borrow().taken.len();
        taken
    };
    let answer = |records: &[Vec<_>]| {
        let mut ours = model::sender::Sender::fresh();
        records.iter().map(|changes| ours.record(changes)).find(|x| x.is_err())
    };
    let long = vec![changes(65, 1)];
    assert_eq!((taken(&long), answer(&long)), (1, Some(Err(2))));
    let queue = vec![changes(1, 1); 17];
    assert_eq!((taken(&queue), answer(&queue)), (17, Some(Err(13))));
    let times: Vec<_> = changes(257, 257).chunks(64).map(<[_]>::to_vec).collect();
    assert_eq!((taken(&times), answer(&times)), (5, Some(Err(11))));
}
