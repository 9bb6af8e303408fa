//! Logs as files of lines, and listings read back.

use crate::kinds::{pair, Change, Lesson, Message, Pair, Progress};
use std::fmt::Write;

/// The file of a log.
pub fn file(log: &[Message<Pair>]) -> Vec<u8> {
    let mut text = String::new();
    for message in log {
        put_message(&mut text, message);
    }
    text.into_bytes()
}

fn put_message(text: &mut String, message: &Message<Pair>) {
    match message {
        Message::Updates(changes) => {
            text.push_str("R\n");
            for change in changes {
                put_change(text, 'U', change);
            }
        }
        Message::Progress(Progress { lower, upper, counts }) => {
            text.push_str("S\n");
            for time in lower {
                put_time(text, 'L', time);
            }
            for time in upper {
                put_time(text, 'H', time);
            }
            for (time, count) in counts {
                writeln!(text, "C\t{}\t{}\t{}", time.outer, time.inner, count).unwrap();
            }
        }
    }
    text.push_str("E\n");
}

fn put_time(text: &mut String, letter: char, time: &Pair) {
    writeln!(text, "{letter}\t{}\t{}", time.outer, time.inner).unwrap();
}

fn put_change(text: &mut String, letter: char, (data, time, amount): &Change<Pair>) {
    let Lesson { class, room, period } = data;
    let Pair { outer: round, inner: week } = time;
    writeln!(text, "{letter}\t{round}\t{week}\t{class}\t{room}\t{period}\t{amount}").unwrap();
}

/// One answer in a listing.
#[derive(Clone, Debug, PartialEq, Eq)]
pub enum Entry {
    Interval(Vec<Change<Pair>>, Vec<Pair>),
    Refused(u8),
    /// Messages accepted and refused.
    End(usize, usize),
}

/// The lines of an answer.
pub fn listed(entry: &Entry) -> Vec<u8> {
    let mut text = String::new();
    match entry {
        Entry::Interval(changes, frontier) => {
            writeln!(text, "I\t{}\t{}", changes.len(), frontier.len()).unwrap();
            for change in changes {
                put_change(&mut text, 'P', change);
            }
            for time in frontier {
                put_time(&mut text, 'F', time);
            }
        }
        Entry::Refused(number) => writeln!(text, "N\t{number}").unwrap(),
        Entry::End(accepted, refused) => writeln!(text, "Z\t{accepted}\t{refused}").unwrap(),
    }
    text.into_bytes()
}

/// The answers of a listing; none where it has not the form of one.
pub fn entries(listing: &[u8]) -> Option<Vec<Entry>> {
    let text = std::str::from_utf8(listing).ok()?;
    let mut lines = text.lines();
    let mut entries = Vec::new();
    while let Some(line) = lines.next() {
        let (letter, fields) = numbers(line)?;
        entries.push(match (letter, fields.as_slice()) {
            ("I", [changes, times]) => {
                let changes = (0..*changes).map(|_| published(lines.next()?)).collect::<Option<_>>()?;
                let times = (0..*times).map(|_| reported(lines.next()?)).collect::<Option<_>>()?;
                Entry::Interval(changes, times)
            }
            ("N", [number]) => Entry::Refused(u8::try_from(*number).ok()?),
            ("Z", [accepted, refused]) => Entry::End(*accepted as usize, *refused as usize),
            _ => return None,
        });
    }
    Some(entries)
}

fn published(line: &str) -> Option<Change<Pair>> {
    match numbers(line)? {
        ("P", fields) => {
            let [round, week, class, room, period, amount] = fields.try_into().ok()?;
            let (class, room, period) = (class as u16, room as u16, period as u16);
            Some((Lesson { class, room, period }, pair(round as u64, week as u64), amount as i64))
        }
        _ => None,
    }
}

fn reported(line: &str) -> Option<Pair> {
    match numbers(line)? {
        ("F", fields) => {
            let [round, week] = fields.try_into().ok()?;
            Some(pair(round as u64, week as u64))
        }
        _ => None,
    }
}

fn numbers(line: &str) -> Option<(&str, Vec<i128>)> {
    let mut fields = line.split('\t');
    let letter = fields.next()?;
    Some((letter, fields.map(|field| field.parse().ok()).collect::<Option<_>>()?))
}
