//! Random messages over a small lattice: what an honest sender sends and a relay makes of it,
//! and messages that no sender would send.

use super::{at, beyond};
use crate::check::{prompt, sender};
use crate::kinds::{lesson, Change, Message, Pair, Progress, Time};
use crate::model::sender::Sender;

/// Numbers that are the same for the same seed.
pub struct Random(pub u64);

impl Random {
    pub fn number(&mut self) -> u64 {
        self.0 = self.0.wrapping_add(0x9e37_79b9_7f4a_7c15);
        let mut x = self.0;
        x = (x ^ (x >> 30)).wrapping_mul(0xbf58_476d_1ce4_e5b9);
        x = (x ^ (x >> 27)).wrapping_mul(0x94d0_49bb_1331_11eb);
        x ^ (x >> 31)
    }
    /// A number below this one.
    pub fn below(&mut self, end: u64) -> u64 {
        self.number() % end
    }
    pub fn chance(&mut self, percent: u64) -> bool {
        self.below(100) < percent
    }
    /// A number within two of a limit.
    pub fn near(&mut self, limit: u64) -> u64 {
        limit - 2 + self.below(5)
    }
    pub fn shuffle<X>(&mut self, list: &mut [X]) {
        for i in (1..list.len()).rev() {
            list.swap(i, self.below(i as u64 + 1) as usize);
        }
    }
    /// A list of at most so many things.
    pub fn list<X>(&mut self, most: u64, mut one: impl FnMut(&mut Self) -> X) -> Vec<X> {
        (0..self.below(most + 1)).map(|_| one(self)).collect()
    }
}

/// How large the lattice and the data of a log are.
#[derive(Copy, Clone)]
pub struct Small {
    pub rounds: u64,
    pub weeks: u64,
    pub lessons: u64,
}

impl Small {
    /// With one week, a log is over plain rounds.
    pub fn any(random: &mut Random) -> Self {
        let weeks = if random.chance(25) { 1 } else { 2 + random.below(3) };
        Small { rounds: 2 + random.below(5), weeks, lessons: 1 + random.below(4) }
    }
    pub fn time(&self, random: &mut Random) -> Pair {
        at(random.below(self.rounds), random.below(self.weeks))
    }
    pub fn change(&self, random: &mut Random) -> Change<Pair> {
        let amount = if random.chance(80) { 1 } else { random.below(3) as i64 - 1 };
        (lesson(random.below(self.lessons)), self.time(random), amount)
    }
    /// A statement about anything: its lists need not be frontiers, its counts may lie outside.
    pub fn statement(&self, random: &mut Random) -> Progress<Pair> {
        let lower = match random.chance(50) {
            true => vec![at(0, 0)],
            false => random.list(3, |random| self.time(random)),
        };
        let upper = random.list(3, |random| self.time(random));
        let mut counts = random.list(3, |random| (self.time(random), random.below(3) as usize));
        // Mostly such as pass 6, so that more of them act.
        if random.chance(80) {
            counts.retain(|(time, _)| beyond(&lower, time) && !beyond(&upper, time));
        }
        Progress { lower, upper, counts }
    }
    pub fn message(&self, random: &mut Random) -> Message<Pair> {
        match random.chance(50) {
            true => Message::Updates(random.list(4, |random| self.change(random))),
            false => Message::Progress(self.statement(random)),
        }
    }
}

/// Messages that no sender need have sent.
pub fn wild(random: &mut Random) -> Vec<Message<Pair>> {
    let small = Small::any(random);
    random.list(12, |random| small.message(random))
}

/// What a sender sends that records and closes at random; what it refuses is not sent.
pub fn sent(random: &mut Random, steps: u64) -> Vec<Message<Pair>> {
    let small = Small::any(random);
    let (mut sender, mut number) = (Sender::fresh(), 0);
    for _ in 0..steps {
        if random.chance(60) {
            let changes = random.list(3, |random| {
                number += 1;
                (lesson(number), small.time(random), 1)
            });
            let _ = sender.record(&changes);
        } else {
            let list = random.list(3, |random| small.time(random));
            let _ = sender.close(&list);
        }
    }
    if random.chance(30) {
        let _ = sender.finish();
    }
    sender.changes.into_iter().chain(sender.statements).collect()
}

/// Repeats, loses and reorders.
pub fn relayed(random: &mut Random, sent: &[Message<Pair>]) -> Vec<Message<Pair>> {
    let losing = random.chance(50);
    let copies = |random: &mut Random| match random.below(10) {
        0 if losing => 0,
        0..=6 => 1,
        7..=8 => 2,
        _ => 3,
    };
    let mut log = Vec::new();
    for message in sent {
        log.extend(std::iter::repeat_n(message.clone(), copies(random)));
    }
    random.shuffle(&mut log);
    log
}

/// Calls on a prompt reader that gets these messages, with settle and heed in between.
pub fn prompt_calls<T: Time>(random: &mut Random, log: &[Message<T>]) -> Vec<prompt::Call<T>> {
    let mut calls = Vec::new();
    for message in log {
        calls.push(prompt::Call::of(message));
        if random.chance(50) {
            calls.push(prompt::Call::Settle);
        }
        if random.chance(40) {
            calls.push(prompt::Call::Heed);
        }
    }
    calls.extend([prompt::Call::Settle, prompt::Call::Heed]);
    calls
}

/// Calls on a sender, with posts that take few messages or many.
pub fn sender_calls(random: &mut Random) -> Vec<sender::Call<Pair>> {
    let small = Small::any(random);
    random.list(24, |random| {
        let room = if random.chance(60) { 20 } else { random.below(3) as usize };
        match random.below(12) {
            0..=3 => sender::Call::Record(random.list(4, |random| small.change(random))),
            4..=5 => sender::Call::PumpChanges(room),
            6..=8 => sender::Call::Close(random.list(3, |random| small.time(random)), room),
            9 => sender::Call::PumpStatements(room),
            10 => sender::Call::Done(random.chance(70)),
            _ if random.chance(20) => sender::Call::Finish(room),
            _ => sender::Call::Record(vec![small.change(random)]),
        }
    })
}
