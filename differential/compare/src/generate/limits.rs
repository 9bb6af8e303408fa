//! Random logs around each limit: a little below it, at it, and a little above.

use super::random::{Random, Small};
use super::{apart, at};
use crate::check::sender::Call;
use crate::kinds::{lesson, pair, Change, Message, Pair, Progress};

/// A log around one limit, with small messages before and after.
pub fn log(random: &mut Random) -> Vec<Message<Pair>> {
    let small = Small::any(random);
    let mut log = random.list(2, |random| small.message(random));
    log.extend(match random.below(11) {
        0 => long_message(random),
        1 => large_counts(random),
        2 => many_held(random),
        3 => many_waiting(random),
        4 => many_counts(random),
        5 => many_times_counted(random),
        6 => many_times_joined(random),
        7 => many_times_on_the_way(random),
        8 => many_missing(random),
        9 => long_file(random),
        _ => far_times(random),
    });
    log.extend(random.list(3, |random| small.message(random)));
    log
}

fn statement(lower: Vec<Pair>, upper: Vec<Pair>, counts: Vec<(Pair, usize)>) -> Message<Pair> {
    Message::Progress(Progress { lower, upper, counts })
}

fn start() -> Vec<Pair> {
    vec![at(0, 0)]
}

/// Changes with different data, in messages of this length.
fn in_messages(changes: &[Change<Pair>], length: usize) -> Vec<Message<Pair>> {
    changes.chunks(length).map(|part| Message::Updates(part.to_vec())).collect()
}

/// Question 2, by each of its numbers.
fn long_message(random: &mut Random) -> Vec<Message<Pair>> {
    let rounds = |from: u64, number: u64| (from..from + number).map(|round| at(round, 0));
    vec![match random.below(4) {
        0 => Message::Updates((0..random.near(64)).map(|i| (lesson(i), at(0, 0), 1)).collect()),
        1 => statement(rounds(0, random.near(32)).collect(), vec![at(40, 0)], vec![]),
        2 => statement(start(), rounds(1, random.near(32)).collect(), vec![]),
        _ => {
            let counts = rounds(0, random.near(256)).map(|time| (time, 1)).collect();
            statement(start(), vec![at(300, 0)], counts)
        }
    }]
}

/// Question 5.
fn large_counts(random: &mut Random) -> Vec<Message<Pair>> {
    let count = match random.below(3) {
        0 => u32::MAX as usize,
        _ => random.near(1_000_000) as usize,
    };
    let last = (at(1, 1), count);
    vec![statement(start(), vec![at(2, 2)], vec![(at(0, 0), 1), last])]
}

/// Question 9, and then the statement that lets all of them out.
fn many_held(random: &mut Random) -> Vec<Message<Pair>> {
    let number = random.near(2_048);
    let weeks = 1 + random.below(3);
    let changes: Vec<_> = (0..number).map(|i| (lesson(i), at(0, i % weeks), 1)).collect();
    let mut log = in_messages(&changes, if random.chance(70) { 64 } else { 63 });
    let more = random.below(4);
    log.push(Message::Updates((0..more).map(|i| (lesson(number - 2 + i), at(0, 0), 1)).collect()));
    let counts = (0..weeks).map(|w| (at(0, w), (number / weeks) as usize)).collect();
    log.push(statement(start(), vec![at(1, 0)], counts));
    log
}

/// Question 10: statements that wait, also the same one again and again; then the one that lets
/// them act, or that drops them all.
fn many_waiting(random: &mut Random) -> Vec<Message<Pair>> {
    let repeated = random.chance(30);
    let next = |i: u64| statement(vec![at(i, 0)], vec![at(i + 1, 0)], vec![(at(i, 0), 1)]);
    let number = random.near(32);
    let mut log: Vec<_> = (1..=number).map(|i| next(if repeated { 1 } else { i })).collect();
    if random.chance(50) {
        random.shuffle(&mut log);
    }
    let upper = if random.chance(70) { 1 } else { 1 + random.below(number + 2) };
    log.push(statement(start(), vec![at(upper, 0)], vec![]));
    log
}

/// Question 11: counts of many times, from statements, changes or both.
fn many_counts(random: &mut Random) -> Vec<Message<Pair>> {
    let number = random.near(1_024);
    let from_statements = random.below(number + 1);
    let rounds = |from: u64, to: u64| (from..to).map(|round| at(round, 0));
    let mut log = Vec::new();
    for from in (0..from_statements).step_by(256) {
        let to = (from + 256).min(from_statements);
        let counts = rounds(from, to).map(|time| (time, 1)).collect();
        log.push(statement(vec![at(from, 0)], vec![at(to, 0)], counts));
    }
    let changes: Vec<_> = rounds(from_statements, number).map(|time| (lesson(1), time, 1)).collect();
    log.extend(in_messages(&changes, 64));
    if random.chance(50) {
        let counts = rounds(from_statements, number).take(256).map(|time| (time, 1)).collect();
        log.push(statement(vec![at(from_statements, 0)], vec![at(number, 0)], counts));
    }
    log
}

/// Question 12 of the lower edge: announced changes at times of which no two are ordered.
fn many_times_counted(random: &mut Random) -> Vec<Message<Pair>> {
    let times = apart(random.near(31), random.below(2));
    let counts: Vec<_> = times.iter().map(|time| (*time, 1)).collect();
    let upper = if random.chance(50) { vec![at(90, 0)] } else { vec![at(90, 0), at(0, 90)] };
    let mut log = vec![statement(start(), upper, counts)];
    random.shuffle(&mut log);
    log.extend(times.iter().take(3).map(|time| Message::Updates(vec![(lesson(7), *time, 1)])));
    log
}

/// Question 12 of an act: a join of two frontiers that may have more than either.
fn many_times_joined(random: &mut Random) -> Vec<Message<Pair>> {
    let first = apart(2 + random.below(31), random.below(10));
    let second = apart(2 + random.below(31), random.below(10));
    vec![
        statement(start(), first.clone(), vec![(at(0, 0), 1)]),
        Message::Updates(vec![(lesson(1), at(0, 0), 1)]),
        statement(if random.chance(50) { first } else { start() }, second, vec![]),
    ]
}

/// 32 times on the way through a join, though the result is short.
fn many_times_on_the_way(random: &mut Random) -> Vec<Message<Pair>> {
    let mut upper = apart(random.near(31), 1);
    upper.push(at(60, 0));
    upper.push(at(0, 1));
    vec![statement(start(), upper, vec![])]
}

/// Many announced changes at many times, of which some come.
fn many_missing(random: &mut Random) -> Vec<Message<Pair>> {
    let number = 40 + random.below(200);
    let time = |i: u64| at(i % 16, i / 16);
    let counts = (0..number).map(|i| (time(i), 1)).collect();
    let mut log = vec![statement(start(), vec![at(16, 0)], counts)];
    let mut changes: Vec<_> = (0..number).map(|i| (lesson(i), time(i), 1)).collect();
    random.shuffle(&mut changes);
    log.extend(in_messages(&changes, 1 + random.below(64) as usize));
    log
}

/// Times, data and amounts at the ends of their ranges.
fn far_times(random: &mut Random) -> Vec<Message<Pair>> {
    let rounds = [0, 1, u64::MAX / 2, u64::MAX - 1, u64::MAX];
    let weeks = [0, 200_001, 200_052, 219_901, 219_952];
    let mut time = |random: &mut Random| {
        pair(rounds[random.below(5) as usize], weeks[random.below(5) as usize])
    };
    let data = [lesson(0), lesson(9_998), lesson(99_989_999)];
    let amounts = [-1_000, -1, 0, 1_000];
    let mut log = Vec::new();
    for _ in 0..6 {
        let changes = random.list(3, |random| {
            let amount = amounts[random.below(4) as usize];
            (data[random.below(3) as usize], time(random), amount)
        });
        log.push(Message::Updates(changes));
        let lower = if random.chance(60) { start() } else { vec![time(random)] };
        log.push(statement(lower, random.list(3, &mut time), vec![]));
    }
    log
}

/// Question 15: a file, or a listing, of about 65,536 bytes.
fn long_file(random: &mut Random) -> Vec<Message<Pair>> {
    let number = 2_040 + random.below(9);
    // The length of the rounds makes that of the lines, by about a hundred bytes a step.
    let round = 10_u64.pow(4 + random.below(8) as u32);
    let changes: Vec<_> = (0..number).map(|i| (lesson(i), at(round, 1), 1)).collect();
    let mut log = in_messages(&changes, 64);
    let counts = vec![(at(round, 1), number as usize)];
    log.push(statement(start(), vec![at(round + 1, 0)], counts));
    log
}

/// Calls on a sender around its limits.
pub fn sender_calls(random: &mut Random) -> Vec<Call<Pair>> {
    let record = |i: u64, time| Call::Record(vec![(lesson(i), time, 1)]);
    let mut calls: Vec<Call<Pair>> = match random.below(5) {
        // 13 of the queue of changes, and of the queue of statements.
        0 => (0..random.near(16)).map(|i| record(i, at(i, 0))).collect(),
        1 => (1..=random.near(16)).map(|i| Call::Close(vec![at(i, 0)], 0)).collect(),
        // 11: changes at many times, some of them twice.
        2 => {
            let times = random.near(256);
            let rounds: Vec<u64> = (0..times).chain(0..random.below(4)).collect();
            let changes = |part: &[u64]| part.iter().map(|i| (lesson(*i), at(*i, 0), 1)).collect();
            let records = rounds.chunks(64).map(|part| Call::Record(changes(part)));
            records.flat_map(|call| [call, Call::PumpChanges(20)]).collect()
        }
        // 12, also on the way.
        3 => {
            let mut list = apart(random.near(31), 1);
            list.extend(random.list(2, |random| at(random.below(50), random.below(50))));
            vec![record(1, at(1, 1)), Call::Close(list, 20)]
        }
        // 2.
        _ => vec![Call::Record((0..random.near(64)).map(|i| (lesson(i), at(i % 3, 0), 1)).collect())],
    };
    calls.extend([Call::PumpChanges(20), Call::Close(vec![at(100, 0)], 20), Call::PumpStatements(20)]);
    calls.extend([record(1, at(300, 0)), Call::Finish(20), Call::PumpStatements(20)]);
    calls
}

/// Question 5 of a sender: a little over a million changes at one time.
pub fn million() -> Vec<Call<Pair>> {
    let changes: Vec<_> = (0..50).map(|i| (lesson(i), at(0, 0), 1)).collect();
    let full = (0..20_000).flat_map(|_| [Call::Record(changes.clone()), Call::PumpChanges(20)]);
    let one_more = Call::Record(changes[..1].to_vec());
    full.chain([one_more, Call::Close(vec![at(1, 0)], 20), Call::Finish(20)]).collect()
}
