//! The engine's books (marks, free slabs, free slots) against the Rust itself,
//! asked through copies of its graph.

use oracle::engine::{Engine, Room, Step};
use oracle::gen::{session, Plan, Random};
use oracle::store::{ask, Call, Graph};
use oracle::text::{read, Item};
use portgraph::{NodeIndex, PortIndex, PortMut, PortView};

/// Swapping a slot with itself panics from the node mark on.
fn below_node_mark(g: &Graph, slot: u32) -> bool {
    ask(&mut g.clone(), Call { n: 6, a: slot, b: slot, c: 0 }).is_ok()
}

/// The first port of a new node with so many inlets.
fn first_port(g: &mut Graph, inlets: u32) -> u32 {
    let node = g.add_node(inlets as usize, 0);
    g.input(node, 0).unwrap().index() as u32
}

fn check(engine: &Engine) {
    let g = &engine.graph;
    let mark = engine.node_mark;
    assert!(!below_node_mark(g, mark) && (mark == 0 || below_node_mark(g, mark - 1)));
    assert!(!g.contains_port(PortIndex::new(engine.port_mark as usize)));
    for size in 1..=40 {
        // As many free slabs as counted, then the port mark.
        let mut copy = g.clone();
        for _ in 0..engine.free_slabs.get(&size).copied().unwrap_or(0) {
            assert!(first_port(&mut copy, size) < engine.port_mark);
        }
        assert_eq!(first_port(&mut copy, size), engine.port_mark, "size {size}");
    }
    // Every slot below the mark is live or on the free chain, once.
    let mut copy = g.clone();
    for _ in g.node_count()..mark as usize {
        let node = copy.add_node(0, 0).index();
        assert!(node < mark as usize && !g.contains_node(NodeIndex::new(node)));
    }
    assert_eq!(copy.add_node(0, 0).index(), mark as usize);
}

#[test]
fn books_are_the_rusts() {
    let mut random = Random::new(7);
    // Free with itself, free with live, live with live.
    let mut swaps = [0; 3];
    for room in [
        Room { slots: 6, ports: 40, heads: 16, records: 64 },
        Room { slots: 40, ports: 300, heads: 64, records: 300 },
    ] {
        let plan = Plan { room, calls: 300, run: 100, panics: false };
        for _ in 0..15 {
            let session = read(&session(&mut random, plan)).unwrap().remove(0);
            let mut engine = Engine::new(session.room);
            for item in &session.items {
                match item {
                    Item::Run(records) => engine.next_run(*records),
                    Item::Call(said) => follow(&mut engine, said.call, &mut swaps),
                }
            }
        }
    }
    assert!(swaps.iter().all(|n| *n > 0));
}

fn follow(engine: &mut Engine, call: Call, swaps: &mut [u32; 3]) {
    let live = engine.node_live(call.a) as usize + engine.node_live(call.b) as usize;
    let Step::Rust(answer) = engine.step(call) else { return };
    if answer.code == 0 && call.n <= 8 {
        swaps[live] += u32::from(call.n == 6);
        check(engine);
    }
}
