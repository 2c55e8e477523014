use std::io::{self, Read, Write};
use std::process::ExitCode;

use oracle::compare::{compare, Counts};
use oracle::engine::{words_refuse, Engine, Room, Step};
use oracle::gen::{self, Plan, Random};
use oracle::store::{Answer, Call};
use oracle::text::{self, Item, Session};

const USAGE: &str = "\
oracle drive   [--transcript] [--raw] [FILE]
oracle compare [--past-panics] [FILE]
oracle compare-desk [--past-panics] CALLS OUTPUT
oracle gen     [--room S,P,H,R] [--seed N] [--sessions N] [--calls N] [--run N] [--panics]
FILE is standard input where it is left off. README.md says the rest.";

/// The words of the command line; each question takes its words out.
struct Args(Vec<String>);

impl Args {
    fn flag(&mut self, name: &str) -> bool {
        let at = self.0.iter().position(|w| w == name);
        at.map(|at| self.0.remove(at)).is_some()
    }

    fn value(&mut self, name: &str) -> Result<Option<String>, String> {
        let Some(at) = self.0.iter().position(|w| w == name) else { return Ok(None) };
        self.0.remove(at);
        if at < self.0.len() {
            Ok(Some(self.0.remove(at)))
        } else {
            Err(USAGE.into())
        }
    }

    fn number(&mut self, name: &str, or: u32) -> Result<u32, String> {
        self.value(name)?.map_or(Ok(or), |field| text::number(&field))
    }

    /// What is left is the names of `K` files.
    fn files<const K: usize>(self) -> Result<[String; K], String> {
        if self.0.iter().any(|w| w.starts_with("--")) {
            return Err(USAGE.into());
        }
        self.0.try_into().map_err(|_| USAGE.to_string())
    }

    fn sessions(self) -> Result<Vec<Session>, String> {
        if !self.0.is_empty() {
            let [file] = self.files()?;
            return text::read(&slurp(&file)?);
        }
        let mut all = String::new();
        io::stdin().read_to_string(&mut all).map_err(|e| e.to_string())?;
        text::read(&all)
    }
}

/// 0: done, and both sides agree. 1: they disagree. 2: not understood.
fn main() -> ExitCode {
    match run() {
        Ok(agree) => ExitCode::from(u8::from(!agree)),
        Err(e) => {
            eprintln!("{e}");
            ExitCode::from(2)
        }
    }
}

fn run() -> Result<bool, String> {
    let mut args = Args(std::env::args().skip(1).collect());
    let verb = if args.0.is_empty() { String::new() } else { args.0.remove(0) };
    match verb.as_str() {
        "drive" => {
            let (transcript, raw) = (args.flag("--transcript"), args.flag("--raw"));
            let sessions = args.sessions()?;
            print(|out| {
                sessions.iter().for_each(|session| drive(session, transcript, raw, out));
                Ok(())
            })?;
            Ok(true)
        }
        "compare" => {
            let past_panics = args.flag("--past-panics");
            verdict(&args.sessions()?, past_panics)
        }
        "compare-desk" => {
            let past_panics = args.flag("--past-panics");
            let [calls, output] = args.files()?;
            verdict(&text::join_desk(&slurp(&calls)?, &slurp(&output)?)?, past_panics)
        }
        "gen" => print(|out| generate(args, out)).map(|()| true),
        _ => Err(USAGE.into()),
    }
}

fn slurp(file: &str) -> Result<String, String> {
    std::fs::read_to_string(file).map_err(|e| format!("{file}: {e}"))
}

/// Runs `act` with a sink for what it prints.
fn print(act: impl FnOnce(&mut dyn FnMut(&str)) -> Result<(), String>) -> Result<(), String> {
    let mut out = io::BufWriter::new(io::stdout().lock());
    let mut failed = None;
    act(&mut |text| failed = failed.take().or(out.write_all(text.as_bytes()).err()))?;
    failed.or(out.flush().err()).map_or(Ok(()), |e| Err(e.to_string()))
}

fn verdict(sessions: &[Session], past_panics: bool) -> Result<bool, String> {
    let mut counts = Counts::default();
    let verdict = compare(sessions, past_panics, &mut counts);
    print(|out| {
        match &verdict {
            Ok(()) => out(&format!("OK\n{counts}")),
            Err(what) => out(&format!("{what}\ncompared before it:\n{counts}")),
        }
        Ok(())
    })?;
    Ok(verdict.is_ok())
}

fn drive(session: &Session, transcript: bool, raw: bool, out: &mut dyn FnMut(&str)) {
    let mut engine = Engine::new(session.room);
    let mut place = 0;
    let question = |text: String| if transcript { text } else { String::new() };
    out(&question(text::session_line(session.room)));
    for item in &session.items {
        let call = match item {
            Item::Run(records) => {
                out(&question(text::run_line(*records)));
                engine.next_run(*records);
                place = 0;
                continue;
            }
            Item::Call(said) => said.call,
        };
        out(&question(text::call_line(call)));
        let step = if raw { raw_step(&mut engine, call) } else { engine.step(call) };
        let (lines, ended) = step_lines(place, step);
        out(&lines);
        if ended && !raw {
            break;
        }
        place += 1;
    }
}

/// Everything that the Rust has a call for is asked of it.
fn raw_step(engine: &mut Engine, call: Call) -> Step {
    match words_refuse(call) {
        Some(10) => Step::LeftOut(Answer::refused(10, 0)),
        _ => engine.ask_rust(call),
    }
}

/// The lines of one call, and whether the session ends with it.
fn step_lines(place: u32, step: Step) -> (String, bool) {
    match step {
        Step::LeftOut(answer) | Step::Rust(answer) => (text::answer_lines(place, &answer), false),
        Step::NotFollowed(line) => (format!("X\t{place}\tline {line}\n"), true),
        Step::Panic { text, damaged } => {
            let end = if damaged { format!("X\t{place}\tdamaged\n") } else { String::new() };
            (format!("P\t{place}\t{text}\n{end}"), damaged)
        }
    }
}

fn generate(mut args: Args, out: &mut dyn FnMut(&str)) -> Result<(), String> {
    let room = match args.value("--room")? {
        Some(list) => text::room(&list.split(',').collect::<Vec<_>>())?,
        None => Room::DESK,
    };
    let mut random = Random::new(args.number("--seed", 1)?);
    let sessions = args.number("--sessions", 1)?;
    let calls = args.number("--calls", 200)?;
    let run = args.number("--run", 256)?.clamp(1, 256);
    let plan = Plan { room, calls, run, panics: args.flag("--panics") };
    let [] = args.files()?;
    for _ in 0..sessions {
        out(&gen::session(&mut random, plan));
    }
    Ok(())
}
