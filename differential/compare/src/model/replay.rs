//! "Lines" and "Replay".

use super::held::Held;
use super::{sizes, Refusal};
use crate::kinds::{pair, Interval, Lesson, Message, Pair, Progress};
use crate::lines::{listed, Entry};

/// What replay answers, with the listing written to `out` where the answer is not negative.
pub fn replay(file: &[u8], out: &mut [u8]) -> i64 {
    if file.len() > sizes::FILE {
        return -15;
    }
    let messages = match messages(file) {
        Ok(messages) => messages,
        Err(line) => return -(line as i64 * 100 + 14),
    };
    let listing = listing(&messages);
    if listing.len() > sizes::FILE.min(out.len()) {
        return -15;
    }
    out[..listing.len()].copy_from_slice(&listing);
    listing.len() as i64
}

/// What feed answers to each message, from a fresh reader on.
pub fn entries(messages: &[Message<Pair>]) -> Vec<Option<Entry>> {
    let mut reader = Held::fresh();
    messages.iter().map(|message| entry(reader.feed(message))).collect()
}

fn entry(answer: Result<Option<Interval<Pair>>, Refusal>) -> Option<Entry> {
    match answer {
        Ok(None) => None,
        Ok(Some((changes, frontier))) => Some(Entry::Interval(changes, frontier)),
        Err(number) => Some(Entry::Refused(number)),
    }
}

fn listing(messages: &[Message<Pair>]) -> Vec<u8> {
    let entries = entries(messages);
    let refused = entries.iter().filter(|x| matches!(x, Some(Entry::Refused(_)))).count();
    let mut listing: Vec<u8> = entries.iter().flatten().flat_map(listed).collect();
    listing.extend(listed(&Entry::End(messages.len() - refused, refused)));
    listing
}

/// The messages of a file, or its first malformed line.
pub fn messages(file: &[u8]) -> Result<Vec<Message<Pair>>, usize> {
    let mut lines: Vec<&[u8]> = file.split(|byte| *byte == 10).collect();
    // Every line ends with byte 10, so nothing stands behind the last one.
    let rest = lines.pop().unwrap_or_default();
    let mut reading = Reading::default();
    for (place, line) in lines.iter().enumerate() {
        reading.line(line).ok_or(place + 1)?;
    }
    if !rest.is_empty() || reading.open.is_some() {
        return Err(lines.len() + 1);
    }
    Ok(reading.messages)
}

#[derive(Default)]
struct Reading {
    messages: Vec<Message<Pair>>,
    open: Option<Message<Pair>>,
}

impl Reading {
    /// Reads one line; none where it is malformed or out of its place.
    fn line(&mut self, line: &[u8]) -> Option<()> {
        let text = std::str::from_utf8(line).ok()?;
        let (letter, fields) = match text.split_once('\t') {
            Some((letter, rest)) => (letter, rest.split('\t').collect()),
            None => (text, Vec::new()),
        };
        match (letter, &mut self.open, fields.as_slice()) {
            ("R", None, []) => self.open = Some(Message::Updates(Vec::new())),
            ("S", None, []) => {
                let (lower, upper, counts) = (Vec::new(), Vec::new(), Vec::new());
                self.open = Some(Message::Progress(Progress { lower, upper, counts }));
            }
            ("E", Some(_), []) => self.messages.extend(self.open.take()),
            ("U", Some(Message::Updates(changes)), [round, week, class, room, period, amount]) => {
                let lesson = Lesson {
                    class: number(class, 1, 9_999)? as u16,
                    room: number(room, 1, 200)? as u16,
                    period: number(period, 1, 50)? as u16,
                };
                changes.push((lesson, time(round, week)?, signed(amount)?));
            }
            ("L", Some(Message::Progress(s)), [round, week])
                if s.upper.is_empty() && s.counts.is_empty() =>
            {
                s.lower.push(time(round, week)?)
            }
            ("H", Some(Message::Progress(s)), [round, week]) if s.counts.is_empty() => {
                s.upper.push(time(round, week)?)
            }
            ("C", Some(Message::Progress(s)), [round, week, count]) => {
                s.counts.push((time(round, week)?, number(count, 0, u32::MAX.into())? as usize))
            }
            _ => return None,
        }
        Some(())
    }
}

fn time(round: &str, week: &str) -> Option<Pair> {
    let week = number(week, 0, 219_952)?;
    let (year, in_year) = (week / 100, week % 100);
    let is_week = week == 0 || (2000..=2199).contains(&year) && (1..=52).contains(&in_year);
    is_week.then_some(pair(number(round, 0, u64::MAX)?, week))
}

fn number(field: &str, least: u64, largest: u64) -> Option<u64> {
    let digits = !field.is_empty() && field.bytes().all(|byte| byte.is_ascii_digit());
    let plain = digits && (field == "0" || !field.starts_with('0'));
    let value: u64 = plain.then(|| field.parse().ok()).flatten()?;
    (least..=largest).contains(&value).then_some(value)
}

fn signed(field: &str) -> Option<i64> {
    match field.strip_prefix('-') {
        Some(digits) => number(digits, 1, 1_000).map(|value| -(value as i64)),
        None => number(field, 0, 1_000).map(|value| value as i64),
    }
}
