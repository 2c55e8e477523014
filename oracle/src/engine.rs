//! One store of the published Rust, led through a session as document 01 says.
//!
//! What is decided here is read from document 01 and not from the Rust: the
//! refusals about room (4 to 7) and about a call's words (3 and 10), where the
//! Rust is not followed, and what stands against its panics.

use std::collections::BTreeMap;

use portgraph::{NodeIndex, PortIndex, PortMut, PortView};

use crate::store::{ask, word, Answer, Call, Graph};

/// The most inlets, and the most outlets, of one node.
pub const MOST: u32 = 16_384;

/// Lent room: slots, ports, slab heads, and records of one run.
#[derive(Clone, Copy, Debug, PartialEq, Eq)]
pub struct Room {
    pub slots: u32,
    pub ports: u32,
    pub heads: u32,
    pub records: u32,
}

impl Room {
    /// The desk program's.
    pub const DESK: Room = Room { slots: 64, ports: 512, heads: 128, records: 512 };
}

#[derive(Clone, Debug, PartialEq, Eq)]
pub enum Step {
    /// Refused by 3 to 7 or 10, and so left out of the Rust's run.
    LeftOut(Answer),
    /// Line 1, 2 or 3 of document 01's list of where the Rust is not followed;
    /// the Rust was not asked.
    NotFollowed(u32),
    /// The Rust's answer.
    Rust(Answer),
    /// The Rust panicked. Its graph is put back as it was before the call;
    /// `damaged` says whether the panic had left another.
    Panic { text: String, damaged: bool },
}

/// What a resize that is neither refused nor idle takes.
struct Resize {
    /// The size of its new slab; none where it is done in place.
    slab: Option<u32>,
    records: u32,
}

#[derive(Clone)]
pub struct Engine {
    pub graph: Graph,
    pub room: Room,
    /// Records written in this run.
    pub written: u32,
    /// The marks, and how many free slabs there are of each size. The Rust has
    /// no question for these; tests/probe.rs holds them against it.
    pub node_mark: u32,
    pub port_mark: u32,
    pub free_slabs: BTreeMap<u32, u32>,
}

impl Engine {
    pub fn new(room: Room) -> Self {
        let free_slabs = BTreeMap::new();
        Engine { graph: Graph::new(), room, written: 0, node_mark: 0, port_mark: 0, free_slabs }
    }

    /// A further run over the same store, with a log of its own.
    pub fn next_run(&mut self, records: u32) {
        self.written = 0;
        self.room.records = records;
    }

    pub fn step(&mut self, call: Call) -> Step {
        if let Some(code) = words_refuse(call).or_else(|| self.room_refuses(call)) {
            return Step::LeftOut(Answer::refused(code, 0));
        }
        match self.not_followed(call) {
            Some(line) => Step::NotFollowed(line),
            None => self.ask_rust(call),
        }
    }

    /// Asks the Rust, whatever document 01 says of the call.
    pub fn ask_rust(&mut self, call: Call) -> Step {
        let before = self.clone();
        match ask(&mut self.graph, call) {
            Ok(answer) => {
                self.keep_books(&before, call, &answer);
                Step::Rust(answer)
            }
            Err(text) => {
                let damaged = self.graph != before.graph;
                *self = before;
                Step::Panic { text, damaged }
            }
        }
    }

    pub fn node_live(&self, node: u32) -> bool {
        NodeIndex::try_from(node as usize).is_ok_and(|n| self.graph.contains_node(n))
    }

    pub fn port_live(&self, port: u32) -> bool {
        PortIndex::try_from(port as usize).is_ok_and(|p| self.graph.contains_port(p))
    }

    /// Inlets, outlets and capacity; all 0 where the node is not live.
    pub fn sizes(&self, node: u32) -> (u32, u32, u32) {
        let Ok(n) = NodeIndex::try_from(node as usize) else { return (0, 0, 0) };
        let g = &self.graph;
        (word(g.num_inputs(n)), word(g.num_outputs(n)), word(g.node_port_capacity(n)))
    }

    /// None: the node is not live, or has these counts already.
    fn resize_needs(&self, call: Call) -> Option<Resize> {
        let (inlets, outlets, capacity) = self.sizes(call.a);
        if !self.node_live(call.a) || (inlets, outlets) == (call.b, call.c) {
            return None;
        }
        let total = call.b + call.c;
        Some(if 0 < total && total < capacity {
            Resize { slab: None, records: inlets.saturating_sub(call.b) + outlets }
        } else {
            Resize { slab: Some(total.next_power_of_two()), records: inlets + outlets }
        })
    }

    fn slab_refused(&self, size: u32) -> bool {
        self.free_slabs.get(&size).is_none_or(|count| *count == 0)
            && size > self.room.ports - self.port_mark
    }

    fn room_refuses(&self, call: Call) -> Option<u32> {
        match call.n {
            1 => self.room_refuses_add(call.a + call.b),
            3 => {
                let needs = self.resize_needs(call)?;
                if needs.slab.is_some_and(|size| size > self.room.heads) {
                    return Some(4);
                }
                if needs.slab.is_some_and(|size| self.slab_refused(size)) {
                    return Some(6);
                }
                self.log_refuses(needs.records)
            }
            7 => self.log_refuses(word(self.graph.node_count())),
            8 => self.log_refuses(word(self.graph.port_count())),
            _ => None,
        }
    }

    fn room_refuses_add(&self, size: u32) -> Option<u32> {
        let no_free_slot = self.graph.node_count() == self.node_mark as usize;
        if size > self.room.heads {
            Some(4)
        } else if no_free_slot && self.node_mark == self.room.slots {
            Some(5)
        } else if size > 0 && self.slab_refused(size) {
            Some(6)
        } else {
            None
        }
    }

    fn log_refuses(&self, records: u32) -> Option<u32> {
        (records > self.room.records - self.written).then_some(7)
    }

    /// Lines 1 to 3 of the list of where the Rust is not followed.
    fn not_followed(&self, call: Call) -> Option<u32> {
        match call.n {
            8 => {
                let sizes = |n: NodeIndex<u32>| self.sizes(word(n.index()));
                let holds_room_only = |n| matches!(sizes(n), (0, 0, 1..));
                self.graph.nodes_iter().any(holds_room_only).then_some(1)
            }
            6 if call.a < self.node_mark && call.b < self.node_mark => {
                match (self.node_live(call.a), self.node_live(call.b)) {
                    (false, false) => (call.a != call.b).then_some(2),
                    (true, false) => (self.free_head() == Some(call.b)).then_some(3),
                    (false, true) => (self.free_head() == Some(call.a)).then_some(3),
                    (true, true) => None,
                }
            }
            _ => None,
        }
    }

    /// The head of the free chain, asked of a copy of the Rust's store.
    fn free_head(&self) -> Option<u32> {
        if self.graph.node_count() == self.node_mark as usize {
            return None;
        }
        Some(word(self.graph.clone().add_node(0, 0).index()))
    }

    /// What document 01 answers where the Rust panics.
    pub fn documents_refusal(&self, call: Call) -> Option<Answer> {
        let Call { n, a, b, c } = call;
        let (inlets, outlets, _) = self.sizes(a);
        let (code, value) = match n {
            2 | 3 | 9 | 11 if !self.node_live(a) => (1, a),
            4 if !self.port_live(a) || !self.port_live(b) => (2, a),
            5 | 10 | 12 if !self.port_live(a) => (2, a),
            6 if a >= self.node_mark => (1, a),
            6 if b >= self.node_mark => (1, b),
            11 if c >= [inlets, outlets][b as usize] => (2, c),
            _ => return None,
        };
        Some(Answer::refused(code, value))
    }

    fn keep_books(&mut self, before: &Engine, call: Call, answer: &Answer) {
        if answer.code != 0 {
            return;
        }
        self.written += word(answer.records.len());
        let old_size = before.sizes(call.a).2;
        match call.n {
            0 => {
                (self.node_mark, self.port_mark) = (0, 0);
                self.free_slabs.clear();
            }
            1 => {
                self.node_mark = self.node_mark.max(answer.values[0] + 1);
                self.slab_taken(call.a + call.b);
            }
            2 => self.slab_freed(old_size),
            3 => {
                if let Some(size) = before.resize_needs(call).and_then(|needs| needs.slab) {
                    self.slab_taken(size);
                    self.slab_freed(old_size);
                }
            }
            7 => self.node_mark = word(self.graph.node_count()),
            8 => {
                self.port_mark = word(self.graph.port_count());
                self.free_slabs.clear();
            }
            _ => (),
        }
    }

    fn slab_taken(&mut self, size: u32) {
        match self.free_slabs.get_mut(&size) {
            Some(count) if *count > 0 => *count -= 1,
            _ => self.port_mark += size,
        }
    }

    fn slab_freed(&mut self, size: u32) {
        if size > 0 {
            *self.free_slabs.entry(size).or_insert(0) += 1;
        }
    }
}

/// Code 3 or 10, from the words alone.
pub fn words_refuse(call: Call) -> Option<u32> {
    match call.n {
        1 if call.a > MOST || call.b > MOST => Some(3),
        3 if call.b > MOST || call.c > MOST => Some(3),
        11 if call.b > 1 => Some(10),
        0..=13 => None,
        _ => Some(10),
    }
}
