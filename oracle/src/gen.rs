//! Random sessions. The Rust's store is driven alongside, so that most calls
//! name things that are live.

use portgraph::{LinkView, PortView};

use crate::engine::{Engine, Room, Step, MOST};
use crate::store::Call;
use crate::text::{call_line, run_line, session_line};

/// splitmix64: small, and the same on every machine.
pub struct Random(u64);

impl Random {
    /// Mixed once: the plain seeds 1, 2, 3 would give one stream, shifted.
    pub fn new(seed: u32) -> Self {
        let mixed = Random(u64::from(seed)).next();
        Random(mixed)
    }
    fn next(&mut self) -> u64 {
        self.0 = self.0.wrapping_add(0x9E37_79B9_7F4A_7C15);
        let mut z = self.0;
        z = (z ^ (z >> 30)).wrapping_mul(0xBF58_476D_1CE4_E5B9);
        z = (z ^ (z >> 27)).wrapping_mul(0x94D0_49BB_1331_11EB);
        z ^ (z >> 31)
    }
    fn below(&mut self, n: u32) -> u32 {
        (self.next() % u64::from(n.max(1))) as u32
    }
    fn one_in(&mut self, n: u32) -> bool {
        self.below(n) == 0
    }
    /// One of `from`; 0 where there is none.
    fn of(&mut self, from: &[u32]) -> u32 {
        from.get(self.below(from.len() as u32) as usize).copied().unwrap_or(0)
    }
}

#[derive(Clone, Copy)]
pub struct Plan {
    pub room: Room,
    pub calls: u32,
    /// Calls of a run, at most.
    pub run: u32,
    /// Also calls on which the Rust panics.
    pub panics: bool,
}

/// Each session leans another way.
struct Lean {
    /// Counts of ports go mostly up to here.
    spread: u32,
    /// Fewer removes.
    growing: bool,
}

impl Lean {
    fn new(random: &mut Random, room: Room) -> Self {
        let widest = if random.one_in(4) { 12 } else { 5 };
        let spread = 1 + random.below(widest.min(room.heads));
        let growing = random.one_in(3);
        // Every other session in a wide store has wide nodes, so that it fills.
        if room.ports >= 1024 && random.one_in(2) {
            return Lean { spread: room.ports / 64, growing };
        }
        Lean { spread, growing }
    }
}

/// One session that document 01 takes to its end: no call of the lines 1 to 3
/// where the Rust is not followed, and none on which the Rust panics, if the
/// plan does not ask for these.
pub fn session(random: &mut Random, plan: Plan) -> String {
    let mut out = session_line(plan.room);
    let mut engine = Engine::new(plan.room);
    let lean = Lean::new(random, plan.room);
    let mut left = 1 + random.below(plan.run);
    let mut made = 0;
    while made < plan.calls {
        if left == 0 {
            let most = plan.room.records;
            let records = if random.one_in(2) { most } else { random.below(most + 1) };
            out += &run_line(records);
            engine.next_run(records);
            left = 1 + random.below(plan.run);
        }
        let call = Maker::new(random, &engine, &lean, plan.panics).call();
        match engine.step(call) {
            Step::NotFollowed(_) => continue,
            Step::Panic { .. } if !plan.panics => continue,
            _ => (),
        }
        out += &call_line(call);
        left -= 1;
        made += 1;
    }
    out
}

/// How often each call is made, of 1000. The last stands for all numbers that
/// are no call.
const OFTEN: [u32; 15] = [3, 200, 80, 200, 200, 50, 50, 15, 20, 50, 40, 40, 27, 20, 5];

/// Makes one call from what stands in the store.
struct Maker<'a> {
    random: &'a mut Random,
    engine: &'a Engine,
    lean: &'a Lean,
    panics: bool,
    nodes: Vec<u32>,
    ports: Vec<u32>,
    linked: Vec<u32>,
    /// Ports without a wire: inlets, outlets.
    loose: [Vec<u32>; 2],
}

impl<'a> Maker<'a> {
    fn new(random: &'a mut Random, engine: &'a Engine, lean: &'a Lean, panics: bool) -> Self {
        let g = &engine.graph;
        let nodes = g.nodes_iter().map(|n| n.index() as u32).collect();
        let (mut ports, mut linked, mut loose) = (vec![], vec![], [vec![], vec![]]);
        for p in g.ports_iter() {
            ports.push(p.index() as u32);
            let list = match g.port_link(p) {
                Some(_) => &mut linked,
                None => &mut loose[usize::from(g.port_direction(p).unwrap())],
            };
            list.push(p.index() as u32);
        }
        Maker { random, engine, lean, panics, nodes, ports, linked, loose }
    }

    fn call(mut self) -> Call {
        let mut at = self.random.below(OFTEN.iter().sum());
        let mut n = 0;
        while at >= OFTEN[n] {
            at -= OFTEN[n];
            n += 1;
        }
        if n == 2 && self.lean.growing && self.random.one_in(2) {
            n = 3;
        }
        let (a, b, c) = match n {
            1 => (self.count(), self.count(), 0),
            2 | 9 => (self.node(), 0, 0),
            3 => self.resize(),
            4 => self.link(),
            5 => (self.port_to_unlink(), 0, 0),
            6 => self.swap(),
            10 | 12 => (self.port(&self.ports.clone()), 0, 0),
            11 => (self.node(), self.direction(), self.offset()),
            _ => (0, 0, 0),
        };
        let n = if n == 14 { self.random.of(&[14, 15, 255, 65_536, u32::MAX]) } else { n as u32 };
        self.with_junk(Call { n, a, b, c })
    }

    /// A number at the edge of what the Rust can hold, or over it.
    fn huge(&mut self) -> u32 {
        let far = [0x7FFF_FFFD, 0x7FFF_FFFE, 0x7FFF_FFFF, 0x8000_0000, 0x8000_0001, u32::MAX];
        self.random.of(if self.panics { &far } else { &far[..2] })
    }

    fn node(&mut self) -> u32 {
        let nodes = std::mem::take(&mut self.nodes);
        let node = self.one_of(&nodes, self.engine.node_mark);
        self.nodes = nodes;
        node
    }

    fn port(&mut self, from: &[u32]) -> u32 {
        self.one_of(from, self.engine.port_mark)
    }

    fn one_of(&mut self, from: &[u32], mark: u32) -> u32 {
        if self.random.one_in(40) {
            self.huge()
        } else if self.random.one_in(8) {
            self.random.below(mark + 2)
        } else {
            self.random.of(from)
        }
    }

    fn count(&mut self) -> u32 {
        if self.random.one_in(60) {
            self.random.of(&[MOST, MOST + 1, 32_766, 32_767, 65_535, 65_536, u32::MAX])
        } else if self.random.one_in(12) {
            self.random.below(4 * self.lean.spread + 1)
        } else {
            self.random.below(self.lean.spread + 1)
        }
    }

    /// Mostly near the counts and the capacity that the node has.
    fn resize(&mut self) -> (u32, u32, u32) {
        let node = self.node();
        if !self.engine.node_live(node) || self.random.one_in(3) {
            return (node, self.count(), self.count());
        }
        let (inlets, outlets, capacity) = self.engine.sizes(node);
        let total = match self.random.below(6) {
            0 => 0,
            1 => capacity,
            2 => capacity.saturating_sub(1),
            3 => capacity + 1,
            4 => inlets + outlets,
            _ => self.random.below(capacity + 2),
        };
        let inlets = self.random.below(total + 1);
        (node, inlets, total - inlets)
    }

    fn link(&mut self) -> (u32, u32, u32) {
        let [ins, outs] = std::mem::take(&mut self.loose);
        let ports = std::mem::take(&mut self.ports);
        let (from, to) = if self.random.one_in(5) { (&ports, &ports) } else { (&outs, &ins) };
        let (a, b) = (self.port(from), self.port(to));
        if self.random.one_in(2) {
            (a, b, 0)
        } else {
            (b, a, 0)
        }
    }

    fn port_to_unlink(&mut self) -> u32 {
        let from = if self.random.one_in(3) { &mut self.ports } else { &mut self.linked };
        let from = std::mem::take(from);
        self.port(&from)
    }

    fn swap(&mut self) -> (u32, u32, u32) {
        let a = self.node();
        let any = self.random.one_in(2);
        let b = if any { self.random.below(self.engine.node_mark) } else { self.node() };
        if self.random.one_in(2) {
            (a, b, 0)
        } else {
            (b, a, 0)
        }
    }

    fn direction(&mut self) -> u32 {
        if self.random.one_in(30) {
            2 + self.random.below(9)
        } else {
            self.random.below(2)
        }
    }

    fn offset(&mut self) -> u32 {
        if !self.random.one_in(20) {
            return self.random.below(self.lean.spread + 2);
        }
        let far = [32_765, 32_766, 32_767, 65_535, 65_536, u32::MAX];
        self.random.of(if self.panics { &far } else { &far[..2] })
    }

    /// Words that a call does not name are not read: now and then something
    /// stands there.
    fn with_junk(&mut self, call: Call) -> Call {
        if !self.random.one_in(10) {
            return call;
        }
        let junk = self.random.next() as u32;
        let Call { n, a, b, .. } = call;
        match n {
            0 | 7 | 8 | 13 => Call { n, a: junk, b: junk >> 3, c: junk >> 7 },
            2 | 5 | 9 | 10 | 12 => Call { n, a, b: junk, c: junk >> 3 },
            1 | 4 | 6 => Call { n, a, b, c: junk },
            _ => call,
        }
    }
}
