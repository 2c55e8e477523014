//! Asks the published Rust one call. Every answer made here is the Rust's own;
//! what document 01 adds to it (room, refusals from the call's words, the
//! places where the Rust is not followed) is in engine.rs.

use std::cell::{Cell, RefCell};
use std::panic::{self, AssertUnwindSafe};
use std::sync::Once;

use portgraph::portgraph::PortOperation;
use portgraph::{
    Direction, LinkError, LinkMut, LinkView, NodeIndex, PortGraph, PortIndex, PortMut, PortOffset,
    PortView,
};

pub type Graph = PortGraph<u32, u32, u16>;

#[derive(Clone, Copy, Debug, PartialEq, Eq)]
pub struct Call {
    pub n: u32,
    pub a: u32,
    pub b: u32,
    pub c: u32,
}

#[derive(Clone, Copy, Debug, PartialEq, Eq)]
pub struct Record {
    pub kind: u32,
    pub old: u32,
    pub new: u32,
}

#[derive(Clone, Debug, PartialEq, Eq)]
pub struct Answer {
    pub code: u32,
    pub values: [u32; 3],
    pub records: Vec<Record>,
}

impl Answer {
    pub fn refused(code: u32, value: u32) -> Self {
        Answer { code, values: [value, 0, 0], records: vec![] }
    }
    fn done(x: usize, y: usize, z: usize) -> Self {
        Answer { code: 0, values: [word(x), word(y), word(z)], records: vec![] }
    }
    fn recorded(records: Vec<Record>) -> Self {
        Answer { code: 0, values: [word(records.len()), 0, 0], records }
    }
}

pub fn word(x: usize) -> u32 {
    u32::try_from(x).unwrap()
}

fn node(x: u32) -> NodeIndex<u32> {
    NodeIndex::new(x as usize)
}

fn port(x: u32) -> PortIndex<u32> {
    PortIndex::new(x as usize)
}

/// The Rust's answer, or the text of its panic. After a panic the graph may be
/// damaged: the caller keeps a copy.
pub fn ask(graph: &mut Graph, call: Call) -> Result<Answer, String> {
    hide_panics();
    QUIET.set(true);
    let answer = panic::catch_unwind(AssertUnwindSafe(|| answer(graph, call)));
    QUIET.set(false);
    answer.map_err(|_| LAST_PANIC.take())
}

fn answer(g: &mut Graph, call: Call) -> Answer {
    let Call { n, a, b, c } = call;
    match n {
        0 => {
            g.clear();
            Answer::done(0, 0, 0)
        }
        1 => Answer::done(g.add_node(a as usize, b as usize).index(), 0, 0),
        2 => remove(g, a),
        3 => resize(g, a, b, c),
        4 => link(g, a, b),
        5 => unlink(g, a),
        6 => {
            g.swap_nodes(node(a), node(b));
            Answer::done(0, 0, 0)
        }
        7 => compact_nodes(g),
        8 => compact_ports(g),
        9 => sizes(g, a),
        10 => port_place(g, a),
        11 => port_at(g, a, b, c),
        12 => match g.port_link(port(a)) {
            Some(partner) => Answer::done(1, partner.index(), 0),
            None => Answer::done(0, 0, 0),
        },
        13 => Answer::done(g.node_count(), g.port_count(), g.link_count()),
        _ => panic!("oracle: the Rust has no call {n}"),
    }
}

/// Document 01 refuses where the Rust does nothing and says nothing: see that
/// nothing is what it did.
fn idle(g: &mut Graph, act: impl FnOnce(&mut Graph)) {
    let before = g.clone();
    act(g);
    assert!(before == *g, "oracle: a call on something not live changed the graph");
}

fn remove(g: &mut Graph, a: u32) -> Answer {
    let x = node(a);
    if !g.contains_node(x) {
        idle(g, |g| g.remove_node(x));
        return Answer::refused(1, a);
    }
    g.remove_node(x);
    Answer::done(0, 0, 0)
}

fn resize(g: &mut Graph, a: u32, inlets: u32, outlets: u32) -> Answer {
    let (x, inlets, outlets) = (node(a), inlets as usize, outlets as usize);
    if !g.contains_node(x) {
        idle(g, |g| g.set_num_ports(x, inlets, outlets, |_, _| panic!("oracle: a record")));
        return Answer::refused(1, a);
    }
    let mut records = vec![];
    g.set_num_ports(x, inlets, outlets, |old, what| {
        let (kind, new) = match what {
            PortOperation::Removed { old_link: None } => (1, 0),
            PortOperation::Removed { old_link: Some(partner) } => (2, word(partner.index())),
            PortOperation::Moved { new_index } => (3, word(new_index.index())),
        };
        records.push(Record { kind, old: word(old.index()), new });
    });
    Answer::recorded(records)
}

fn link(g: &mut Graph, a: u32, b: u32) -> Answer {
    match g.link_ports(port(a), port(b)) {
        Ok((x, y)) => Answer::done(x.index(), y.index(), 0),
        Err(LinkError::UnknownPort { port }) => Answer::refused(2, word(port.index())),
        Err(LinkError::IncompatibleDirections { port_a, port_b, dir }) => {
            let values = [word(port_a.index()), word(port_b.index()), word(usize::from(dir))];
            Answer { code: 8, values, records: vec![] }
        }
        Err(LinkError::AlreadyLinked { port }) => Answer::refused(9, word(port.index())),
        Err(other) => panic!("oracle: {other:?}"),
    }
}

fn unlink(g: &mut Graph, a: u32) -> Answer {
    let before = g.clone();
    match g.unlink_port(port(a)) {
        Some(partner) => Answer::done(partner.index(), 0, 0),
        None => {
            assert!(before == *g, "oracle: an unlink of nothing changed the graph");
            Answer::refused(if g.contains_port(port(a)) { 12 } else { 2 }, a)
        }
    }
}

fn compact_nodes(g: &mut Graph) -> Answer {
    let mut records = vec![];
    g.compact_nodes(|old, new| {
        records.push(Record { kind: 4, old: word(old.index()), new: word(new.index()) })
    });
    Answer::recorded(records)
}

fn compact_ports(g: &mut Graph) -> Answer {
    let mut records = vec![];
    g.compact_ports(|old, new| {
        records.push(Record { kind: 3, old: word(old.index()), new: word(new.index()) })
    });
    Answer::recorded(records)
}

fn sizes(g: &Graph, a: u32) -> Answer {
    let x = node(a);
    if !g.contains_node(x) {
        return Answer::refused(1, a);
    }
    Answer::done(g.num_inputs(x), g.num_outputs(x), g.node_port_capacity(x))
}

fn port_place(g: &Graph, a: u32) -> Answer {
    let p = port(a);
    match (g.port_node(p), g.port_direction(p), g.port_offset(p)) {
        (Some(x), Some(d), Some(offset)) => {
            assert!(offset.direction() == d, "oracle: two directions for one port");
            Answer::done(x.index(), usize::from(d), offset.index())
        }
        (None, None, None) => Answer::refused(2, a),
        _ => panic!("oracle: three questions on one port disagree"),
    }
}

fn port_at(g: &Graph, a: u32, direction: u32, offset: u32) -> Answer {
    let x = node(a);
    let direction = Direction::try_from(direction as usize).unwrap();
    match g.port_index(x, PortOffset::new(direction, offset as usize)) {
        Some(p) => Answer::done(p.index(), 0, 0),
        None if g.contains_node(x) => Answer::refused(2, offset),
        None => Answer::refused(1, a),
    }
}

thread_local! {
    static LAST_PANIC: RefCell<String> = const { RefCell::new(String::new()) };
    /// Set while the Rust is asked: its panics are caught and not shown.
    static QUIET: Cell<bool> = const { Cell::new(false) };
}

/// Keeps the text and the place of a panic that `ask` catches, as one line.
fn hide_panics() {
    static ONCE: Once = Once::new();
    ONCE.call_once(|| {
        let usual = panic::take_hook();
        panic::set_hook(Box::new(move |info| {
            if !QUIET.get() {
                return usual(info);
            }
            let text = match info.payload().downcast_ref::<&str>() {
                Some(s) => s.to_string(),
                None => info.payload().downcast_ref::<String>().cloned().unwrap_or_default(),
            };
            let place = info.location().map_or(String::new(), |l| {
                format!(" ({}:{})", l.file().rsplit('/').next().unwrap_or(""), l.line())
            });
            LAST_PANIC.set((text + &place).replace(['\t', '\n'], " "));
        }));
    });
}
