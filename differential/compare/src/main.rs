//! Runs the comparisons and prints a summary. Ends with 1 where there is a difference that is on
//! no list, after the smallest log that shows it.

use compare::check::held::{self, Replay};
use compare::check::{caught, prompt, sender, Finding};
use compare::generate::{damage, limits, random, words, Random};
use compare::kinds::{with_times, Message, Pair, Round, Time};
use compare::lines::file;
use compare::model;
use compare::smaller::smallest;
use compare::tally::Tally;

/// What is asked for on the command line.
struct Wanted {
    seed: u64,
    /// Random logs of each kind.
    logs: u64,
    /// The length of the words over the messages of the square.
    square: usize,
    /// The length of the words over the messages of small senders; those over calls are shorter
    /// by one, since there are more calls than messages.
    senders: usize,
}

fn wanted() -> Wanted {
    let seed = std::time::UNIX_EPOCH.elapsed().map_or(1, |time| time.as_nanos() as u64);
    let mut wanted = Wanted { seed, logs: 12_000, square: 2, senders: 6 };
    let mut arguments = std::env::args().skip(1);
    while let Some(name) = arguments.next() {
        let value: u64 = arguments.next().and_then(|x| x.parse().ok()).expect("a number after each name");
        match name.as_str() {
            "--seed" => wanted.seed = value,
            "--logs" => wanted.logs = value,
            "--square" => wanted.square = value as usize,
            "--senders" => wanted.senders = value as usize,
            _ => panic!("{name} is none of --seed, --logs, --square, --senders"),
        }
    }
    wanted
}

struct Run {
    ours: Box<dyn Replay>,
    tally: Tally,
    findings: u64,
}

fn main() {
    let wanted = wanted();
    let (name, ours) = held::ours();
    println!("seed {}", wanted.seed);
    println!("held reader: {name}; prompt reader and sender: the test double");
    let mut run = Run { ours, tally: Tally::default(), findings: 0 };
    run.words(&wanted);
    run.random(&wanted);
    print!("{}", run.tally);
    println!("differences on no list: {}", run.findings);
    std::process::exit(i32::from(run.findings > 0));
}

impl Run {
    fn words(&mut self, wanted: &Wanted) {
        let all = words::square_messages(false);
        words::words(&all, 1).for_each(|log| self.both_readers(&log));
        let inside = words::square_messages(true);
        for length in 2..=wanted.square {
            words::words(&inside, length).for_each(|log| self.both_readers(&log));
        }
        for letters in words::small_senders() {
            let calls = words::prompt_letters(&letters);
            for length in 1..=wanted.senders {
                words::words(&letters, length).for_each(|log| self.log(&log));
            }
            for length in 1..wanted.senders {
                words::words(&calls, length).for_each(|calls| self.prompt(&calls));
            }
        }
        let calls = words::sender_letters();
        for length in 1..wanted.senders {
            words::words(&calls, length).for_each(|calls| self.sender(&calls));
        }
    }
    fn random(&mut self, wanted: &Wanted) {
        let mut random = Random(wanted.seed);
        for _ in 0..wanted.logs {
            let wild = random::wild(&mut random);
            self.log(&wild);
            let steps = 4 + random.below(20);
            let sent = random::sent(&mut random, steps);
            let relayed = random::relayed(&mut random, &sent);
            self.log(&relayed);
            self.damaged(&damage::damaged(&mut random, &file(&relayed)));
            self.prompt(&random::prompt_calls(&mut random, &wild));
            self.prompt(&random::prompt_calls(&mut random, &relayed));
            let calls = random::sender_calls(&mut random);
            self.sender(&calls);
            // The same over plain rounds; replay is over pairs alone.
            let rounds: Vec<_> = wild.iter().map(|x| with_times(x, |time| time.outer)).collect();
            self.prompt::<Round>(&random::prompt_calls(&mut random, &rounds));
            let calls: Vec<_> = calls.iter().map(|call| call.with_times(|time| time.outer)).collect();
            self.sender::<Round>(&calls);
        }
        // These are long, so there are fewer of them.
        for _ in 0..wanted.logs / 6 {
            let log = limits::log(&mut random);
            self.log(&log);
            self.prompt(&random::prompt_calls(&mut random, &log));
            self.sender(&limits::sender_calls(&mut random));
        }
        self.sender(&limits::million());
    }
    /// A log for both sorts of reader, the prompt one settled and heeded after each message.
    fn both_readers(&mut self, log: &[Message<Pair>]) {
        self.log(log);
        let settled = |message| [prompt::Call::of(message), prompt::Call::Settle, prompt::Call::Heed];
        self.prompt(&log.iter().flat_map(settled).collect::<Vec<_>>());
    }
    fn log(&mut self, log: &[Message<Pair>]) {
        let ours = &mut *self.ours;
        if caught(|| held::log(ours, log, &mut self.tally)).is_err() {
            let mut check = |log: &[_]| caught(|| held::log(ours, log, &mut Tally::default()));
            let log = smallest(log.to_vec(), |log| check(log).is_err());
            let finding = check(&log).unwrap_err();
            self.found("held reader", &String::from_utf8_lossy(&file(&log)), finding);
        }
    }
    fn damaged(&mut self, bytes: &[u8]) {
        let ours = &mut *self.ours;
        if let Err(finding) = caught(|| held::damaged(ours, bytes, &mut self.tally)) {
            self.found("damaged file", &format!("{:?}", String::from_utf8_lossy(bytes)), finding);
        }
    }
    fn prompt<T: Time>(&mut self, calls: &[prompt::Call<T>]) {
        let check = |calls: &[prompt::Call<T>], part: &mut _| {
            caught(|| prompt::calls(&mut model::prompt::Prompt::fresh(), calls, part))
        };
        if check(calls, &mut self.tally.prompt).is_err() {
            let calls = smallest(calls.to_vec(), |calls| check(calls, &mut Default::default()).is_err());
            let finding = check(&calls, &mut Default::default()).unwrap_err();
            self.found("prompt reader", &format!("{calls:#?}"), finding);
        }
    }
    fn sender<T: Time>(&mut self, calls: &[sender::Call<T>]) {
        let check = |calls: &[_], part: &mut _| caught(|| sender::calls(calls, part));
        if check(calls, &mut self.tally.sender).is_err() {
            let calls = smallest(calls.to_vec(), |calls| check(calls, &mut Default::default()).is_err());
            let finding = check(&calls, &mut Default::default()).unwrap_err();
            self.found("sender", &format!("{calls:#?}"), finding);
        }
    }
    /// Prints the first few differences; further ones are only counted.
    fn found(&mut self, part: &str, log: &str, finding: Finding) {
        self.findings += 1;
        if self.findings <= 5 {
            println!("DIFFERENCE in the {part}, at message {} of", finding.at + 1);
            println!("{log}");
            println!("  ours: {}\n  wanted: {}", finding.ours, finding.wanted);
        }
    }
}
