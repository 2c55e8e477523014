//! Another implementation's transcript against the Rust.

use std::collections::BTreeMap;
use std::fmt;

use crate::engine::{Engine, Step};
use crate::store::Answer;
use crate::text::{answer_lines, call_line, Item, Said, Session};

/// How often, by call number and by code or kind.
type Tally = BTreeMap<(u32, u32), u64>;

#[derive(Default)]
pub struct Counts {
    pub sessions: u64,
    pub runs: u64,
    pub calls: u64,
    /// Calls after the place where their session's comparison ended.
    pub not_reached: u64,
    pub equal: Tally,
    pub records: Tally,
    pub left_out: Tally,
    /// The Rust panicked, and the other side gave document 01's 1 or 2.
    pub panics: Tally,
    /// Sessions that ended early, by line of the list in document 01.
    pub stopped: BTreeMap<u32, u64>,
}

/// `past_panics`: go on after a call on which the Rust panics and which leaves
/// its graph as it was.
pub fn compare(sessions: &[Session], past_panics: bool, counts: &mut Counts) -> Result<(), String> {
    for (k, session) in sessions.iter().enumerate() {
        counts.sessions += 1;
        counts.runs += 1;
        let mut engine = Engine::new(session.room);
        let mut place = 0;
        let mut stopped = false;
        for item in &session.items {
            match item {
                Item::Run(records) => {
                    counts.runs += 1;
                    engine.next_run(*records);
                    place = 0;
                }
                Item::Call(_) if stopped => counts.not_reached += 1,
                Item::Call(said) => {
                    counts.calls += 1;
                    stopped = one(&mut engine, place, said, past_panics, counts)
                        .map_err(|what| report(k + 1, place, said, &what))?;
                    place += 1;
                }
            }
        }
    }
    Ok(())
}

fn report(session: usize, place: u32, said: &Said, what: &str) -> String {
    let call = call_line(said.call).trim().replace('\t', " ");
    let what = what.trim_end();
    format!(
        "DISAGREEMENT\nsession {session} (from 1), line {}, place {place}, call {call}\n{what}",
        said.line
    )
}

/// True: the comparison of this session ends here.
fn one(
    engine: &mut Engine,
    place: u32,
    said: &Said,
    past_panics: bool,
    counts: &mut Counts,
) -> Result<bool, String> {
    let call = said.call;
    let other = said.answer.as_ref().ok_or("the transcript has no answer to this call")?;
    if let Some(wrong) = said.places.iter().find(|p| **p != place) {
        return Err(format!("place {wrong} in the other side's lines"));
    }
    match engine.step(call) {
        Step::LeftOut(wanted) => {
            same(place, "document 01, from the call's words or the room", &wanted, other)?;
            add(&mut counts.left_out, (call.n, wanted.code));
            Ok(false)
        }
        Step::NotFollowed(line) => {
            *counts.stopped.entry(line).or_insert(0) += 1;
            Ok(true)
        }
        Step::Rust(rust) => {
            same(place, "the Rust", &rust, other)?;
            add(&mut counts.equal, (call.n, rust.code));
            rust.records.iter().for_each(|r| add(&mut counts.records, (call.n, r.kind)));
            Ok(false)
        }
        Step::Panic { text, damaged } => {
            let code = panicked(engine, place, said, other, &text)?;
            add(&mut counts.panics, (call.n, code));
            if past_panics && !damaged {
                return Ok(false);
            }
            *counts.stopped.entry(4).or_insert(0) += 1;
            Ok(true)
        }
    }
}

/// The code that document 01 gives where the Rust panics; the other side has it.
fn panicked(
    engine: &Engine,
    place: u32,
    said: &Said,
    other: &Answer,
    text: &str,
) -> Result<u32, String> {
    // The oracle's own complaints are no panics of the Rust.
    let wanted = engine.documents_refusal(said.call).filter(|_| !text.starts_with("oracle:"));
    let wanted = wanted.ok_or(format!("the Rust panics: {text}; document 01 has no 1 or 2"))?;
    same(place, &format!("the Rust panics: {text}; document 01"), &wanted, other)?;
    Ok(wanted.code)
}

fn same(place: u32, whose: &str, wanted: &Answer, other: &Answer) -> Result<(), String> {
    if wanted == other {
        return Ok(());
    }
    let (wanted, other) = (answer_lines(place, wanted), answer_lines(place, other));
    Err(format!("{whose}:\n{wanted}other side:\n{other}"))
}

fn add(tally: &mut Tally, key: (u32, u32)) {
    *tally.entry(key).or_insert(0) += 1;
}

impl fmt::Display for Counts {
    fn fmt(&self, f: &mut fmt::Formatter<'_>) -> fmt::Result {
        writeln!(f, "sessions\t{}", self.sessions)?;
        writeln!(f, "runs\t{}", self.runs)?;
        writeln!(f, "calls\t{}\tnot reached\t{}", self.calls, self.not_reached)?;
        let lists = [
            ("answers equal to the Rust's", "code", &self.equal),
            ("records equal to the Rust's", "kind", &self.records),
            ("left out of the Rust's run", "code", &self.left_out),
            ("panics of the Rust against 1 or 2", "code", &self.panics),
        ];
        for (title, second, list) in lists {
            writeln!(f, "{title}\t{}", list.values().sum::<u64>())?;
            for ((n, x), count) in list {
                writeln!(f, "\tcall {n}\t{second} {x}\t{count}")?;
            }
        }
        let stopped: u64 = self.stopped.values().sum();
        writeln!(f, "sessions that ended where the Rust is not followed\t{stopped}")?;
        for (line, count) in &self.stopped {
            writeln!(f, "\tline {line}\t{count}")?;
        }
        Ok(())
    }
}
