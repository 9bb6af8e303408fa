//! Our held reader, through replay, beside the Rust's.

use super::Finding;
use crate::kinds::{each_once, pair, sorted, with_times, Message, Pair, Progress, Round, Time};
use crate::lines::{entries, file, Entry};
use crate::model;
use crate::rust::held::Held;
use crate::tally::{Part, Tally};

/// Our function of replay: it answers the listing's length, or minus (line × 100 + number).
pub trait Replay {
    fn replay(&mut self, file: &[u8], out: &mut [u8]) -> i64;
}

/// The test double in place of our library.
pub struct Model;

impl Replay for Model {
    fn replay(&mut self, file: &[u8], out: &mut [u8]) -> i64 {
        model::replay::replay(file, out)
    }
}

/// Our side, and what to call it.
#[cfg(feature = "library")]
pub fn ours() -> (&'static str, Box<dyn Replay>) {
    ("our library", Box::new(crate::library::Library))
}

/// Our side, and what to call it.
#[cfg(not(feature = "library"))]
pub fn ours() -> (&'static str, Box<dyn Replay>) {
    ("the test double (our library was not given)", Box::new(Model))
}

/// What replay says of a file: its listing, or the negative answer. The output past the listing
/// has to be as it was.
fn replayed(ours: &mut dyn Replay, file: &[u8], room: usize) -> Result<Vec<u8>, i64> {
    const BEFORE: u8 = 0xa5;
    let mut out = vec![BEFORE; room];
    let answer = ours.replay(file, &mut out);
    let length = answer.max(0) as usize;
    assert!(out[length..].iter().all(|byte| *byte == BEFORE), "the output was written too far");
    out.truncate(length);
    if answer < 0 { Err(answer) } else { Ok(out) }
}

/// Compares one log, message by message.
pub fn log(ours: &mut dyn Replay, log: &[Message<Pair>], tally: &mut Tally) -> Result<(), Finding> {
    let bytes = file(log);
    let plain = replayed(ours, &bytes, model::sizes::FILE);
    let marked = replayed(ours, &file(&marked(log)), model::sizes::FILE);
    let (Ok(plain), Ok(marked)) = (&plain, &marked) else {
        tally.too_long += 1;
        return too_long(&bytes, &plain);
    };
    let answers = entries(marked).and_then(|entries| unmarked(&entries, log.len()));
    let answers = answers.ok_or_else(|| Finding::new(0, "a listing out of its form", ""))?;
    same_without_marks(plain, &answers)?;
    as_the_rules_say(log, &answers)?;
    tally.held.runs += 1;
    follow(log, &answers, |time| time, &mut tally.held)?;
    if log.iter().all(plain_rounds) {
        follow::<Round>(log, &answers, |time| time.outer, &mut Part::default())?;
    }
    Ok(())
}

/// Two statements that are refused wherever they stand, by 5 and by 6. Put after each message
/// they show in the listing where its answer ends, and alter nothing.
fn marks() -> [Message<Pair>; 2] {
    let counting = |count| Progress { lower: vec![], upper: vec![], counts: vec![(pair(0, 0), count)] };
    [1_000_001, 1].map(|count| Message::Progress(counting(count)))
}

fn marked(log: &[Message<Pair>]) -> Vec<Message<Pair>> {
    log.iter().flat_map(|message| std::iter::once(message.clone()).chain(marks())).collect()
}

/// The answer to each message, out of a listing with marks.
fn unmarked(entries: &[Entry], messages: usize) -> Option<Vec<Option<Entry>>> {
    const MARKS: [Entry; 2] = [Entry::Refused(5), Entry::Refused(6)];
    let mut rest = entries;
    let mut answers = Vec::new();
    for _ in 0..messages {
        if rest.starts_with(&MARKS) {
            answers.push(None);
        } else {
            answers.push(Some(rest.first()?.clone()));
            rest = &rest[1..];
        }
        rest = rest.strip_prefix(&MARKS)?;
    }
    let refused = answers.iter().filter(|x| matches!(x, Some(Entry::Refused(_)))).count();
    (rest == [Entry::End(messages - refused, refused + 2 * messages)]).then_some(answers)
}

/// Without marks the listing has the same answers.
fn same_without_marks(plain: &[u8], answers: &[Option<Entry>]) -> Result<(), Finding> {
    let refused = answers.iter().filter(|x| matches!(x, Some(Entry::Refused(_)))).count();
    let mut wanted: Vec<Entry> = answers.iter().flatten().cloned().collect();
    wanted.push(Entry::End(answers.len() - refused, refused));
    let got = entries(plain).unwrap_or_default();
    if got == wanted { Ok(()) } else { Err(Finding::new(0, got, wanted)) }
}

/// Which messages are refused, and by which number, is not the Rust's to say: the model does.
fn as_the_rules_say(log: &[Message<Pair>], answers: &[Option<Entry>]) -> Result<(), Finding> {
    let wanted = model::replay::entries(log);
    match (0..log.len()).find(|at| answers[*at] != wanted[*at]) {
        Some(at) => Err(Finding::new(at, &answers[at], ("by the rules", &wanted[at]))),
        None => Ok(()),
    }
}

fn too_long(bytes: &[u8], plain: &Result<Vec<u8>, i64>) -> Result<(), Finding> {
    let mut out = vec![0; model::sizes::FILE];
    let wanted = model::replay::replay(bytes, &mut out);
    let got = plain.as_ref().map_or_else(|answer| *answer, |listing| listing.len() as i64);
    if got == wanted { Ok(()) } else { Err(Finding::new(0, got, ("by the rules", wanted))) }
}

/// Feeds the Rust what we accepted, and compares each answer with ours, as sets.
fn follow<T: Time>(
    log: &[Message<Pair>],
    answers: &[Option<Entry>],
    time: impl Fn(Pair) -> T,
    part: &mut Part,
) -> Result<(), Finding> {
    let mut rust = Held::<T>::fresh();
    for (at, (message, answer)) in log.iter().zip(answers).enumerate() {
        part.messages += 1;
        if let Some(Entry::Refused(number)) = answer {
            part.refused[*number as usize] += 1;
            continue;
        }
        let (message, repeats) = each_once(&with_times(message, &time));
        part.twice += u64::from(repeats);
        let theirs = rust.feed(message).map(|(changes, frontier)| (sorted(&changes), sorted(&frontier)));
        let ours = match answer {
            Some(Entry::Interval(changes, frontier)) => {
                let changes: Vec<_> = changes.iter().map(|(d, t, r)| (*d, time(*t), *r)).collect();
                let frontier: Vec<_> = frontier.iter().map(|t| time(*t)).collect();
                part.changes_out += changes.len() as u64;
                part.frontiers += 1;
                Some((sorted(&changes), sorted(&frontier)))
            }
            _ => None,
        };
        if ours != theirs {
            return Err(Finding::new(at, ours, theirs));
        }
    }
    Ok(())
}

fn plain_rounds(message: &Message<Pair>) -> bool {
    match message {
        Message::Updates(changes) => changes.iter().all(|(_, time, _)| time.inner == 0),
        Message::Progress(Progress { lower, upper, counts }) => {
            let times = lower.iter().chain(upper).chain(counts.iter().map(|(time, _)| time));
            times.into_iter().all(|time| time.inner == 0)
        }
    }
}

/// Compares a damaged file: the answer where it is malformed, else as the log that it still is.
pub fn damaged(ours: &mut dyn Replay, bytes: &[u8], tally: &mut Tally) -> Result<(), Finding> {
    match model::replay::messages(bytes) {
        Ok(messages) if bytes.len() <= model::sizes::FILE => {
            tally.well_formed += 1;
            in_less_room(ours, bytes)?;
            log(ours, &messages, tally)
        }
        _ => {
            tally.malformed += 1;
            let mut untouched = vec![0; model::sizes::FILE];
            let wanted = model::replay::replay(bytes, &mut untouched);
            let got = replayed(ours, bytes, model::sizes::FILE);
            if got == Err(wanted) { Ok(()) } else { Err(Finding::new(0, got, ("by the rules", wanted))) }
        }
    }
}

/// A listing fits where there is just room for it, and is refused by 15 where there is less.
fn in_less_room(ours: &mut dyn Replay, bytes: &[u8]) -> Result<(), Finding> {
    let Ok(listing) = replayed(ours, bytes, model::sizes::FILE) else { return Ok(()) };
    let just = replayed(ours, bytes, listing.len());
    let less = replayed(ours, bytes, listing.len() - 1);
    if (&just, &less) == (&Ok(listing), &Err(-15)) {
        return Ok(());
    }
    Err(Finding::new(0, (just, less), "by the rules: the listing, then -15"))
}
