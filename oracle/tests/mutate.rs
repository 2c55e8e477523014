//! The comparison sees every single change to the other side's lines.

use oracle::compare::{compare, Counts};
use oracle::engine::{Engine, Room, Step};
use oracle::gen::{session, Plan, Random};
use oracle::text::{answer_lines, call_line, read, run_line, session_line, Item};

/// The same session with right answers, also where the Rust panics.
fn answered(text: &str) -> Vec<String> {
    let session = read(text).unwrap().remove(0);
    let mut engine = Engine::new(session.room);
    let mut out = session_line(session.room);
    let mut place = 0;
    for item in &session.items {
        match item {
            Item::Run(records) => {
                engine.next_run(*records);
                out += &run_line(*records);
                place = 0;
            }
            Item::Call(said) => {
                let answer = match engine.step(said.call) {
                    Step::LeftOut(answer) | Step::Rust(answer) => answer,
                    Step::Panic { .. } => engine.documents_refusal(said.call).unwrap(),
                    Step::NotFollowed(_) => panic!("not in this plan"),
                };
                out += &call_line(said.call);
                out += &answer_lines(place, &answer);
                place += 1;
            }
        }
    }
    out.lines().map(String::from).collect()
}

fn agrees(lines: &[String]) -> bool {
    let Ok(sessions) = read(&lines.join("\n")) else { return false };
    compare(&sessions, true, &mut Counts::default()).is_ok()
}

/// `line` with one of its numbers one more or one less.
fn changes(line: &str) -> Vec<String> {
    let fields: Vec<&str> = line.split('\t').collect();
    let mut all = vec![];
    for k in 1..fields.len() {
        let x: u32 = fields[k].parse().unwrap();
        for y in [x.wrapping_add(1), x.wrapping_sub(1)] {
            let y = y.to_string();
            let mut changed = fields.clone();
            changed[k] = &y;
            all.push(changed.join("\t"));
        }
    }
    all
}

#[test]
fn every_change_is_seen() {
    let room = Room { slots: 8, ports: 48, heads: 16, records: 40 };
    let plan = Plan { room, calls: 120, run: 60, panics: true };
    let mut random = Random::new(3);
    for _ in 0..6 {
        let mut lines = answered(&session(&mut random, plan));
        assert!(agrees(&lines));
        for i in 0..lines.len() {
            if !lines[i].starts_with(['A', 'R']) {
                continue;
            }
            let right = lines.remove(i);
            assert!(!agrees(&lines), "left out: {right}");
            lines.insert(i, right.clone());
            for wrong in changes(&right) {
                lines[i] = wrong;
                assert!(!agrees(&lines), "{right} as {}", lines[i]);
            }
            lines[i] = right;
            let two_records = lines[i - 1].starts_with('R') && lines[i].starts_with('R');
            if two_records && lines[i - 1] != lines[i] {
                lines.swap(i - 1, i);
                assert!(!agrees(&lines), "order of {}", lines[i]);
                lines.swap(i - 1, i);
            }
        }
    }
}
