//! Transcripts, and the desk program's lines. README.md has the grammar.

use crate::engine::Room;
use crate::store::{Answer, Call, Record};

#[derive(Clone, Debug)]
pub enum Item {
    /// A further run over the same store, with a log of so many records.
    Run(u32),
    Call(Said),
}

/// A call, and what the other side answered, if anything.
#[derive(Clone, Debug)]
pub struct Said {
    pub line: usize,
    pub call: Call,
    pub answer: Option<Answer>,
    /// The places that its answer and its records name.
    pub places: Vec<u32>,
}

#[derive(Clone, Debug)]
pub struct Session {
    pub room: Room,
    pub items: Vec<Item>,
}

/// A number as the desk takes it: decimal, below 2^32, no needless zero.
pub fn number(field: &str) -> Result<u32, String> {
    let plain = field.bytes().all(|b| b.is_ascii_digit());
    let needless = field.len() > 1 && field.starts_with('0');
    match field.parse() {
        Ok(x) if plain && !needless => Ok(x),
        _ => Err(format!("not a number: {field:?}")),
    }
}

fn numbers<const K: usize>(fields: &[&str]) -> Result<[u32; K], String> {
    let all: Result<Vec<u32>, String> = fields.iter().map(|f| number(f)).collect();
    all?.try_into().map_err(|_| format!("{K} numbers wanted"))
}

pub fn room(fields: &[&str]) -> Result<Room, String> {
    let [slots, ports, heads, records] = numbers(fields)?;
    Ok(Room { slots, ports, heads, records })
}

pub fn read(text: &str) -> Result<Vec<Session>, String> {
    let mut sessions: Vec<Session> = vec![];
    for (at, line) in text.lines().enumerate() {
        if line.is_empty() || line.starts_with('#') {
            continue;
        }
        read_line(line, at + 1, &mut sessions).map_err(|e| format!("line {}: {e}", at + 1))?;
    }
    Ok(sessions)
}

fn read_line(text: &str, line: usize, sessions: &mut Vec<Session>) -> Result<(), String> {
    let fields: Vec<&str> = text.split('\t').collect();
    if fields[0] == "S" {
        sessions.push(Session { room: room(&fields[1..])?, items: vec![] });
        return Ok(());
    }
    if sessions.is_empty() {
        sessions.push(Session { room: Room::DESK, items: vec![] });
    }
    let items = &mut sessions.last_mut().unwrap().items;
    match fields[0] {
        "N" => {
            let [records] = numbers(&fields[1..])?;
            items.push(Item::Run(records));
            Ok(())
        }
        "A" | "R" => read_answer(&fields, items),
        first => {
            let [n, a, b, c] = numbers(&fields[usize::from(first == "C")..])?;
            let call = Call { n, a, b, c };
            items.push(Item::Call(Said { line, call, answer: None, places: vec![] }));
            Ok(())
        }
    }
}

/// An A line, or an R line after it, belongs to the call above.
fn read_answer(fields: &[&str], items: &mut [Item]) -> Result<(), String> {
    let Some(Item::Call(said)) = items.last_mut() else {
        return Err("an answer to no call".into());
    };
    let place = match (fields[0], &mut said.answer) {
        ("A", None) => {
            let [place, code, x, y, z] = numbers(&fields[1..])?;
            said.answer = Some(Answer { code, values: [x, y, z], records: vec![] });
            place
        }
        ("R", Some(answer)) => {
            let [place, kind, old, new] = numbers(&fields[1..])?;
            answer.records.push(Record { kind, old, new });
            place
        }
        ("A", _) => return Err("a second answer".into()),
        _ => return Err("a record before its answer".into()),
    };
    said.places.push(place);
    Ok(())
}

/// The desk program's input and its output, as one session.
pub fn join_desk(calls: &str, output: &str) -> Result<Vec<Session>, String> {
    let mut text = String::new();
    let mut output = output.lines().peekable();
    for call in calls.lines() {
        text += &format!("C\t{call}\n");
        match output.next() {
            Some(line) if line.starts_with("A\t") => text += &format!("{line}\n"),
            other => return Err(format!("output: an A line wanted, found {other:?}")),
        }
        while let Some(line) = output.next_if(|line| line.starts_with("R\t")) {
            text += &format!("{line}\n");
        }
    }
    match output.next() {
        None => read(&text),
        Some(line) => Err(format!("output: a line too many, {line:?}")),
    }
}

pub fn session_line(room: Room) -> String {
    format!("S\t{}\t{}\t{}\t{}\n", room.slots, room.ports, room.heads, room.records)
}

pub fn run_line(records: u32) -> String {
    format!("N\t{records}\n")
}

pub fn call_line(call: Call) -> String {
    format!("C\t{}\t{}\t{}\t{}\n", call.n, call.a, call.b, call.c)
}

pub fn answer_lines(place: u32, answer: &Answer) -> String {
    let [x, y, z] = answer.values;
    let mut out = format!("A\t{place}\t{}\t{x}\t{y}\t{z}\n", answer.code);
    for r in &answer.records {
        out += &format!("R\t{place}\t{}\t{}\t{}\n", r.kind, r.old, r.new);
    }
    out
}
