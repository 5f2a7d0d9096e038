//! Conversions to bool at each place, by ISO C 6.3.1.2: any known number but 0
//! is 1. Every expected value is said by hand.

use std::collections::BTreeMap;

use oracle::boolean::{has_bool, is_bool};
use oracle::emulate::{Run, Stop, Val};
use oracle::judge::{judge, judge_constant, Files, LEAST_WORKSPACE};
use oracle::source::{Call, Routine, World};
use oracle::stops::Stopped;
use oracle::tree::*;

const ONE: Val = bool_of(1);
const ZERO: Val = bool_of(0);

const fn bool_of(number: u64) -> Val {
    Val {
        value: Some(number),
        bits: 8,
        signed: false,
    }
}

const UNKNOWN: Val = Val {
    value: None,
    bits: 8,
    signed: false,
};

/// Where the image has two bytes of 7.
const IMAGE: u64 = 0x2000;

fn run(routine: Routine, arguments: &[u64]) -> Run {
    let world = World::default()
        .region(IMAGE, &[7, 7])
        .symbol("byte", 1, IMAGE)
        .symbol("word", 2, IMAGE);
    let files = Files {
        routine: routine.file(),
        world: world.file(),
        call: Call::new(20, arguments).file(),
    };
    let verdict = judge(&files, 65_536, LEAST_WORKSPACE);
    verdict.accepted().expect("the case is accepted").run
}

fn routine(return_type: &str) -> Routine {
    Routine::new("f", 0x1000, return_type)
}

/// What a routine of this type returns.
fn returned(ty: &str, value: Tree) -> Option<Val> {
    run(routine(ty).then(give(value)).returns(), &[]).returned()
}

/// What is written to memory by a statement.
fn memory(statement: Tree) -> BTreeMap<u64, u8> {
    run(routine("int").then(statement).returns(), &[]).memory
}

fn int(number: u64) -> Tree {
    constant(number, 4)
}

fn through(ty: &str) -> Tree {
    deref(cast(ty, constant(IMAGE, 8)))
}

#[test]
fn spellings() {
    for ty in [
        "bool",
        "_Bool",
        "const bool",
        "bool const",
        "volatile _Bool",
        "_Bool volatile",
        "const volatile bool const",
        "const const _Bool",
        "  bool ",
    ] {
        assert!(is_bool(ty) && has_bool(ty), "{ty}");
    }
    for ty in [
        "unsigned bool",
        "bool unsigned",
        "signed _Bool",
        "bool bool",
        "bool _Bool",
        "bool *",
        "bool*",
        "*bool",
        "const*bool",
        "bool*const",
        "struct bool",
        "bool;",
        "restrict bool",
    ] {
        assert!(!is_bool(ty) && has_bool(ty), "{ty}");
    }
    for ty in [
        "boolean_t",
        "Bool",
        "BOOL",
        "__Bool",
        "_bool",
        "bool8",
        "my_bool",
        "",
        "const",
    ] {
        assert!(!is_bool(ty) && !has_bool(ty), "{ty:?}");
    }
}

#[test]
fn a_cast() {
    let of = |ty: &str, number: u64| returned("void", cast(ty, int(number)));
    assert_eq!(of("bool", 256), Some(ONE));
    assert_eq!(of("const _Bool volatile", 2), Some(ONE));
    assert_eq!(of("_Bool", 0), Some(ZERO));
    assert_eq!(of("unsigned bool", 256), Some(ZERO));
    assert_eq!(of("bool unsigned", 0x102), Some(bool_of(2)));
    assert_eq!(of("bool *", 256), Some(Val::known(256, 64, false)));
    assert_eq!(of("boolean_t", 256), Some(Val::known(256, 64, true)));
}

/// Every bit of every width alone, all of them, and none.
#[test]
fn sources_of_all_widths() {
    for width in 1..=8 {
        for bit in 0..8 * width {
            let number = constant(1 << bit, width);
            assert_eq!(returned("void", cast("bool", number)), Some(ONE));
        }
        let all = constant(u64::MAX, width);
        assert_eq!(returned("void", cast("bool", all)), Some(ONE));
        let none = constant(0, width);
        assert_eq!(returned("void", cast("bool", none)), Some(ZERO));
    }
}

#[test]
fn unsigned_sources() {
    for (ty, bits) in [
        ("uint8_t", 8),
        ("uint16_t", 16),
        ("uint32_t", 32),
        ("uint64_t", 64),
    ] {
        let of = |number: u64| returned("void", cast("bool", cast(ty, constant(number, 8))));
        assert_eq!(of(1 << (bits - 1)), Some(ONE), "{ty}");
        assert_eq!(of(u64::MAX), Some(ONE), "{ty}");
        assert_eq!(of(0), Some(ZERO), "{ty}");
    }
    // Cut to a byte before it is converted.
    let cut = cast("bool", cast("uint8_t", int(256)));
    assert_eq!(returned("void", cut), Some(ZERO));
}

#[test]
fn a_parameter() {
    let routine = routine("int")
        .param("p", "bool")
        .param("q", "unsigned bool")
        .param("r", "bool const")
        .param("s", "_Bool")
        .param("t", "bool")
        .returns();
    let run = run(routine, &[256, 256, u64::MAX, 0]);
    assert_eq!(run.variables["p"], ONE);
    assert_eq!(run.variables["q"], ZERO);
    assert_eq!(run.variables["r"], ONE);
    assert_eq!(run.variables["s"], ZERO);
    assert_eq!(run.variables["t"], UNKNOWN);
}

/// Each argument is converted to the type of its own parameter, and what is
/// assigned to the type that was declared last.
#[test]
fn names_declared_twice() {
    let routine = routine("int")
        .param("p", "uint8_t")
        .param("p", "bool")
        .local("p", "uint16_t")
        .local("x", "uint8_t")
        .local("x", "bool")
        .then(assign(var("q"), var("p")))
        .then(assign(var("p"), int(256)))
        .then(assign(var("x"), int(256)))
        .returns();
    let run = run(routine, &[0, 256]);
    assert_eq!(run.variables["q"], ONE);
    assert_eq!(run.variables["p"], Val::known(256, 16, false));
    assert_eq!(run.variables["x"], ONE);
}

#[test]
fn an_assignment_to_a_name() {
    let routine = routine("int")
        .local("door", "volatile bool")
        .local("pump", "bool")
        .local("unset", "bool")
        .then(assign(var("door"), int(256)))
        .then(assign(var("outer"), assign(var("pump"), int(0xff00))))
        .then(assign(var("undeclared"), int(256)))
        .returns();
    let run = run(routine, &[]);
    assert_eq!(run.steps[0].wrote, Some(("door".to_string(), ONE)));
    assert_eq!(run.variables["door"], ONE);
    assert_eq!(run.variables["pump"], ONE);
    assert_eq!(run.variables["outer"], ONE);
    assert_eq!(run.variables["unset"], UNKNOWN);
    assert_eq!(run.variables["undeclared"], Val::known(256, 32, true));
}

#[test]
fn a_store_through_a_pointer() {
    let stored = |ty: &str, number: u64| memory(assign(through(ty), int(number)));
    let byte = |byte: u8| BTreeMap::from([(IMAGE, byte)]);
    assert_eq!(stored("bool *", 256), byte(1));
    assert_eq!(stored("_Bool const* ", 2), byte(1));
    assert_eq!(stored("bool*", 0), byte(0));
    assert_eq!(stored("unsigned bool *", 256), byte(0));
    assert_eq!(stored("unsigned bool *", 0x102), byte(2));
    // What is stored is a pointer of eight bytes.
    assert_eq!(stored("bool **", 256)[&(IMAGE + 1)], 1);
}

/// The address is what is converted here, and a number of eight bytes goes
/// there.
#[test]
fn a_store_to_an_address_that_is_a_bool() {
    let stored = memory(assign(through("bool"), int(0x0102)));
    let expected = (1..9).zip([2, 1, 0, 0, 0, 0, 0, 0]);
    assert_eq!(stored, expected.collect());
}

#[test]
fn the_fields_of_a_structure() {
    let fields = vec![
        field("bool", 0, int(256)),
        field("unsigned bool", 1, int(256)),
        field("const bool", 2, int(0)),
    ];
    let expected = BTreeMap::from([(IMAGE, 1), (IMAGE + 1, 0), (IMAGE + 2, 0)]);
    // The Cast of a structure's address is taken off and converts nothing.
    for ty in ["struct s *", "bool *", "bool"] {
        let stored = memory(assign(through(ty), struct_init(fields.clone())));
        assert_eq!(stored, expected, "{ty}");
    }
}

#[test]
fn a_returned_value() {
    assert_eq!(returned("bool", int(256)), Some(ONE));
    assert_eq!(returned("volatile _Bool", int(0)), Some(ZERO));
    assert_eq!(returned("unsigned bool", int(256)), Some(ZERO));
    // Returned from the routine is only what a statement returns.
    let routine = routine("bool")
        .then(assign(var("x"), give(int(256))))
        .returns();
    assert_eq!(run(routine, &[]).variables["x"], Val::known(256, 32, true));
}

#[test]
fn unknown_stays_unknown() {
    let routine = routine("bool")
        .local("b", "bool")
        .then(assign(var("b"), var("nothing")))
        .then(assign(var("c"), cast("bool", register(16, 0, 0, 0))))
        .then(give(var("nothing")))
        .returns();
    let run = run(routine, &[]);
    assert_eq!(run.variables["b"], UNKNOWN);
    assert_eq!(run.variables["c"], UNKNOWN);
    assert_eq!(run.returned(), Some(UNKNOWN));
}

#[test]
fn a_load_keeps_the_byte() {
    assert_eq!(returned("void", through("bool *")), Some(bool_of(7)));
    assert_eq!(returned("bool", through("bool *")), Some(ONE));
}

#[test]
fn a_symbol_has_no_type() {
    assert_eq!(memory(assign(var("byte"), int(256)))[&IMAGE], 0);
    assert_eq!(memory(assign(var("word"), int(256)))[&(IMAGE + 1)], 1);
}

/// A declared name hides a symbol.
#[test]
fn a_declared_name_beside_a_symbol() {
    let routine = routine("int")
        .local("word", "bool")
        .then(assign(var("word"), int(256)))
        .returns();
    let run = run(routine, &[]);
    assert_eq!((run.variables["word"], run.memory.len()), (ONE, 0));
}

/// `constant_value` of each node.
#[test]
fn constant_values() {
    let routine = routine("bool")
        .local("b", "bool")
        .then(cast("bool", int(256)))
        .then(give(int(256)))
        .then(assign(var("b"), int(256)));
    let file = routine.returns().file();
    let of = |node: u32| judge_constant(&file, node, LEAST_WORKSPACE);
    assert_eq!(of(0), Ok(Some(ONE)));
    // Nothing is declared there, and nothing returns.
    let whole = Val::known(256, 32, true);
    assert_eq!(of(2), Ok(Some(whole)));
    assert_eq!(of(4), Ok(Some(whole)));
}

/// The nodes that stops name are the file's, whatever stands before them.
#[test]
fn nodes_of_stops() {
    let node = |statement: Tree| match run(routine("bool").then(statement).returns(), &[]).stop {
        stop @ Stop::Unknown { .. } => Stopped::new(&stop).node,
        other => panic!("{other:?}"),
    };
    let bad = |ty: &str| assign(deref(cast(ty, var("u"))), cast("bool", int(256)));
    let structure = |ty: &str| {
        let fields = vec![field("bool", 0, int(256))];
        assign(deref(cast(ty, var("u"))), struct_init(fields))
    };
    // The Cast of a pointer, and what is under it of a structure's.
    for ty in ["bool", "bool *"] {
        assert_eq!(node(bad(ty)), 2, "{ty}");
        assert_eq!(node(structure(ty)), 3, "{ty}");
        // In an expression, behind `Cast, Assign, Var`.
        let within = |inner: Tree| cast("bool", assign(through("bool *"), inner));
        assert_eq!(node(within(bad(ty))), 7, "{ty}");
        assert_eq!(node(within(structure(ty))), 8, "{ty}");
    }
    let no_place = assign(cast("bool", int(1)), cast("bool", int(256)));
    assert_eq!(node(no_place.clone()), 1);
    assert_eq!(node(give(cast("bool", no_place))), 3);
}
