//! Writes a fixed list of logs with the Rust's answers, for a gate that has no Rust at hand:
//!
//!     sample SEED NUMBER FOLDER
//!
//! `FOLDER/logs` has the files of the logs and `FOLDER/answers` their listings, in the same order,
//! with an empty line after each. Only logs are taken of which we accept every message and on
//! which there is no difference, so each listing is what the Rust gives; a set of changes or of
//! times, which the Rust has in no order of its own, is written in ours.

use compare::check::held::{log, Model};
use compare::generate::{random, Random};
use compare::kinds::{Message, Pair};
use compare::lines::file;
use compare::model::{replay::replay, sizes};
use compare::tally::Tally;

fn main() {
    let arguments: Vec<String> = std::env::args().skip(1).collect();
    let [seed, number, folder] = arguments.as_slice() else { panic!("sample SEED NUMBER FOLDER") };
    let mut random = Random(seed.parse().expect("a seed"));
    let number: usize = number.parse().expect("a number");
    let (mut logs, mut answers) = (Vec::new(), Vec::new());
    let mut taken = 0;
    while taken < number {
        let log = one(&mut random);
        if let Some(listing) = the_rusts_listing(&log) {
            logs.extend([file(&log), b"\n".to_vec()].concat());
            answers.extend([listing, b"\n".to_vec()].concat());
            taken += 1;
        }
    }
    std::fs::write(format!("{folder}/logs"), logs).unwrap();
    std::fs::write(format!("{folder}/answers"), answers).unwrap();
}

fn one(random: &mut Random) -> Vec<Message<Pair>> {
    if random.chance(30) {
        return random::wild(random);
    }
    let steps = 4 + random.below(12);
    let sent = random::sent(random, steps);
    random::relayed(random, &sent)
}

/// The listing, where the Rust agrees to all of it and two frontiers at least were told.
fn the_rusts_listing(messages: &[Message<Pair>]) -> Option<Vec<u8>> {
    let mut tally = Tally::default();
    log(&mut Model, messages, &mut tally).expect("no difference");
    let all_accepted = tally.held.refused.iter().all(|number| *number == 0);
    let telling = tally.held.frontiers >= 2 && tally.held.changes_out >= 1;
    if !all_accepted || !telling || tally.held.twice > 0 {
        return None;
    }
    let mut out = vec![0; sizes::FILE];
    let length = replay(&file(messages), &mut out);
    out.truncate(length as usize);
    Some(out)
}
