//! What the published Rust does where document 01 speaks of it, each with a
//! short session that shows it. docs/DIFFERENCES.md tells these in words.

use oracle::engine::{Engine, Room, Step};
use oracle::store::{Answer, Call, Record};
use portgraph::{PortMut, PortView};

fn engine() -> Engine {
    Engine::new(Room { slots: 64, ports: 1 << 20, heads: 32_768, records: 1 << 20 })
}

fn call(n: u32, a: u32, b: u32, c: u32) -> Call {
    Call { n, a, b, c }
}

/// Asks the Rust, also where document 01 does not follow it.
fn ask(e: &mut Engine, n: u32, a: u32, b: u32, c: u32) -> Answer {
    match e.ask_rust(call(n, a, b, c)) {
        Step::Rust(answer) => answer,
        other => panic!("{n} {a} {b} {c}: {other:?}"),
    }
}

fn ask_all(e: &mut Engine, calls: &[(u32, u32, u32, u32)]) {
    calls.iter().for_each(|c| drop(ask(e, c.0, c.1, c.2, c.3)));
}

fn panics(e: &mut Engine, n: u32, a: u32, b: u32, c: u32) -> bool {
    matches!(e.ask_rust(call(n, a, b, c)), Step::Panic { .. })
}

/// The port marks that document 01's starred numbers name, asked of the Rust: a
/// slab of a size never freed starts at the mark.
#[test]
fn starred_marks() {
    let mut e = engine();
    ask_all(&mut e, &[(1, 2, 1, 0), (1, 1, 1, 0), (4, 2, 3, 0)]);
    for (inlets, outlets, mark, capacity) in
        [(2, 1, 9, 4), (1, 2, 9, 4), (1, 3, 13, 4), (0, 0, 14, 1)]
    {
        ask(&mut e, 3, 1, inlets, outlets);
        assert_eq!(e.port_mark, mark);
        assert_eq!(ask(&mut e, 9, 1, 0, 0).values, [inlets, outlets, capacity]);
        let mut copy = e.graph.clone();
        let node = copy.add_node(7, 0);
        assert_eq!(copy.input(node, 0).unwrap().index(), mark as usize);
    }
    // The last starred line is line 1 below: answer, records and mark are the
    // document's, the capacity stays 1.
    assert_eq!(e.step(call(8, 0, 0, 0)), Step::NotFollowed(1));
    let kept = |p| Record { kind: 3, old: p, new: p };
    assert_eq!(ask(&mut e, 8, 0, 0, 0).records, [kept(0), kept(1), kept(2)]);
    assert_eq!(e.port_mark, 3);
    assert_eq!(ask(&mut e, 9, 1, 0, 0).values, [0, 0, 1]);
}

/// Line 1: the stale first port later makes a remove panic, or takes a port of
/// another node.
#[test]
fn line_1() {
    let mut e = engine();
    ask_all(&mut e, &[(1, 1, 0, 0), (3, 0, 0, 0), (8, 0, 0, 0)]);
    assert_eq!(ask(&mut e, 9, 0, 0, 0).values, [0, 0, 1]);
    assert!(panics(&mut e, 2, 0, 0, 0));

    let mut e = engine();
    ask_all(&mut e, &[(1, 1, 0, 0), (3, 0, 0, 0), (1, 2, 2, 0), (8, 0, 0, 0), (2, 0, 0, 0)]);
    // Inlet 1 of node 1 is gone, though nobody took it; the count still has it.
    assert_eq!(ask(&mut e, 10, 1, 0, 0), Answer::refused(2, 1));
    assert_eq!(ask(&mut e, 13, 0, 0, 0).values, [1, 4, 0]);
}

/// Line 2: a free slot is lost, and of three free slots two.
#[test]
fn line_2() {
    let added = |e: &mut Engine| ask(e, 1, 0, 0, 0).values[0];
    let mut e = engine();
    ask_all(&mut e, &[(1, 0, 0, 0), (1, 0, 0, 0), (2, 0, 0, 0), (2, 1, 0, 0)]);
    assert_eq!(e.step(call(6, 0, 1, 0)), Step::NotFollowed(2));
    assert_eq!(e.step(call(6, 1, 1, 0)), Step::Rust(Answer::refused(0, 0)));
    ask(&mut e, 6, 0, 1, 0);
    assert_eq!([added(&mut e), added(&mut e), added(&mut e)], [1, 2, 3]);

    let mut e = engine();
    ask_all(&mut e, &[(1, 0, 0, 0); 3]);
    ask_all(&mut e, &[(2, 0, 0, 0), (2, 1, 0, 0), (2, 2, 0, 0), (6, 2, 0, 0)]);
    assert_eq!([added(&mut e), added(&mut e)], [2, 3]);
}

/// Line 3: the next add panics.
#[test]
fn line_3() {
    let mut e = engine();
    ask_all(&mut e, &[(1, 0, 0, 0), (1, 0, 0, 0), (2, 0, 0, 0)]);
    assert_eq!(e.step(call(6, 0, 1, 0)), Step::NotFollowed(3));
    assert_eq!(e.step(call(6, 1, 0, 0)), Step::NotFollowed(3));
    ask(&mut e, 6, 0, 1, 0);
    assert!(panics(&mut e, 1, 0, 0, 0));
}

/// Line 4: every kind of panic, and its neighbours that do not panic.
#[test]
fn line_4() {
    let top = 0x7FFF_FFFE; // the largest index: 2^31 - 2
    let mut e = engine();
    ask(&mut e, 1, 2, 1, 0);
    // A port that is not live: only call 12 panics.
    for n in [5, 10] {
        assert_eq!(ask(&mut e, n, 3, 0, 0), Answer::refused(2, 3));
    }
    assert!(panics(&mut e, 12, 3, 0, 0));
    // A slot at the mark: only swap panics.
    for n in [2, 3, 9, 11] {
        assert_eq!(ask(&mut e, n, 1, 0, 0), Answer::refused(1, 1));
    }
    assert!(panics(&mut e, 6, 1, 0, 0));
    assert!(panics(&mut e, 6, 0, 1, 0));
    // Numbers over 2^31 - 2 cannot be made into an index at all.
    for (n, code) in [(2, 1), (3, 1), (9, 1), (11, 1), (4, 2), (5, 2), (10, 2)] {
        assert_eq!(ask(&mut e, n, top, 0, 0).code, code);
        assert!(panics(&mut e, n, top + 1, 0, 0));
    }
    assert!(panics(&mut e, 4, 0, top + 1, 0));
    // Nor offsets over 32,766, whether the node is live or not.
    assert_eq!(ask(&mut e, 11, 0, 0, 32_766), Answer::refused(2, 32_766));
    assert_eq!(ask(&mut e, 11, 9, 0, 32_766), Answer::refused(1, 9));
    assert!(panics(&mut e, 11, 0, 0, 32_767));
    assert!(panics(&mut e, 11, 9, 0, 32_767));
    assert_eq!(ask(&mut e, 13, 0, 0, 0).values, [1, 3, 0]);
}

/// The last line: an unknown b is answered with a.
#[test]
fn unknown_port_names_a() {
    let mut e = engine();
    ask(&mut e, 1, 2, 1, 0);
    assert_eq!(ask(&mut e, 4, 0, 3, 0), Answer::refused(2, 0));
    assert_eq!(ask(&mut e, 4, 3, 0, 0), Answer::refused(2, 3));
}

/// Code 3 is narrower than the Rust, whose add takes 32,766 of each. A resize
/// of the Rust panics over a total of 32,768; code 3 keeps every total within.
#[test]
fn counts_over_16384() {
    let mut e = engine();
    ask(&mut e, 1, 32_766, 32_766, 0);
    assert_eq!(ask(&mut e, 9, 0, 0, 0).values, [32_766, 32_766, 65_532]);
    assert!(panics(&mut e, 1, 32_767, 0, 0));
    ask(&mut e, 1, 1, 1, 0);
    ask(&mut e, 3, 1, 16_384, 16_384);
    assert!(panics(&mut e, 3, 1, 16_385, 16_384));
}

/// A removed pair inside one node: the second end has no partner any more.
#[test]
fn removed_pair() {
    let mut e = engine();
    ask_all(&mut e, &[(1, 1, 1, 0), (4, 0, 1, 0)]);
    assert_eq!(
        ask(&mut e, 3, 0, 0, 0).records,
        [Record { kind: 2, old: 0, new: 1 }, Record { kind: 1, old: 1, new: 0 }]
    );
    assert_eq!(ask(&mut e, 13, 0, 0, 0).values, [1, 0, 0]);
}

/// In place, kept outlets are recorded onto themselves too; falling where the
/// inlets stay or rise, rising where they fall.
#[test]
fn in_place_order() {
    let moves = |to: (u32, u32)| {
        let mut e = engine();
        // Ports 2 to 9, capacity 8: inlets 2 3 4, outlets 5 6 7.
        ask_all(&mut e, &[(1, 1, 1, 0), (3, 0, 3, 3)]);
        let records = ask(&mut e, 3, 0, to.0, to.1).records;
        records.iter().map(|r| (r.kind, r.old, r.new)).collect::<Vec<_>>()
    };
    assert_eq!(moves((3, 4)), [(3, 7, 7), (3, 6, 6), (3, 5, 5)]);
    assert_eq!(moves((3, 2)), [(1, 7, 0), (3, 6, 6), (3, 5, 5)]);
    assert_eq!(moves((4, 3)), [(3, 7, 8), (3, 6, 7), (3, 5, 6)]);
    assert_eq!(moves((1, 3)), [(1, 3, 0), (1, 4, 0), (3, 5, 3), (3, 6, 4), (3, 7, 5)]);
    assert_eq!(moves((1, 1)), [(1, 3, 0), (1, 4, 0), (1, 6, 0), (1, 7, 0), (3, 5, 3)]);
    assert_eq!(moves((7, 0)), [(1, 5, 0), (1, 6, 0), (1, 7, 0)]);
}
