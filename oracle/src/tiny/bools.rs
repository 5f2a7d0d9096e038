//! Conversions to bool, and what stands near them and converts nothing.

use super::{alone, given, int, place, routine, through, within, Tiny};
use crate::ast::BinaryOp::Add;
use crate::source::{Routine, World};
use crate::tree::*;

/// Where the routines write.
const FLAGS: u64 = 0x2000;

/// Where the image has bytes.
const PANEL: u64 = 0x3000;

/// Bool with `const` and `volatile` in every position.
const SPELLINGS: [&str; 14] = [
    "bool",
    "_Bool",
    "const bool",
    "bool const",
    "volatile _Bool",
    "_Bool volatile",
    "const volatile bool",
    "volatile const _Bool",
    "const bool volatile",
    "volatile _Bool const",
    "bool const volatile",
    "_Bool volatile const",
    "const const bool",
    " bool  volatile ",
];

/// Spellings that are near and name no bool.
const NEIGHBOURS: [&str; 9] = [
    "unsigned bool",
    "bool unsigned",
    "_Bool signed",
    "signed const bool",
    "boolean_t",
    "Bool",
    "bool bool",
    "restrict bool",
    "bool *",
];

/// A name for each spelling.
const NAMES: [&str; 14] = [
    "air_on",
    "belt_on",
    "chuck_shut",
    "coolant_on",
    "door_open",
    "estop",
    "guard_shut",
    "homed",
    "lamp_on",
    "oil_low",
    "probe_out",
    "pump_on",
    "tool_in",
    "vent_open",
];

pub fn cases() -> Vec<Tiny> {
    [
        conversions(),
        parameters(),
        returned(),
        unknowns(),
        others(),
    ]
    .concat()
}

/// Numbers of all widths, signed, and of all that a run has, unsigned.
fn conversions() -> Vec<Tiny> {
    let casts = sources().enumerate().map(cast_to_bool);
    let fields = sources().enumerate().map(bool_field);
    let names = every_second().map(set);
    let stores = every_second().map(store);
    vec![
        alone("bool-casts", filling(routine(), bytes(casts)).returns()),
        alone(
            "bool-fields",
            filling(routine(), fields.collect()).returns(),
        ),
        alone(
            "bool-names",
            filling(locals(&SPELLINGS), bytes(names)).returns(),
        ),
        alone("bool-pointers", sampling(routine(), stores).returns()),
        alone("bool-constants", constants()),
    ]
}

/// 0, 1, one that ends in zeros, the least of the signed ones, a negative one
/// that ends in zeros, and -1.
fn numbers(bytes: u32) -> [u64; 6] {
    let bits = 8 * bytes;
    let least = 1 << (bits - 1);
    let all = least - 1 + least;
    let even = if bytes == 1 { 2 } else { 256 };
    [0, 1, even, least, all - ((1 << (bits / 2)) - 1), all]
}

fn sources() -> impl Iterator<Item = Tree> {
    let of = |bytes| numbers(bytes).map(|number| constant(number, bytes));
    let unsigned = move |bytes| {
        let ty = format!("uint{}_t", 8 * bytes);
        of(bytes).map(|number| cast(&ty, number))
    };
    let signed = (1..=8).flat_map(of);
    signed.chain([1, 2, 4, 8].into_iter().flat_map(unsigned))
}

/// Of each width 0 and the two that end in zeros.
fn every_second() -> impl Iterator<Item = (usize, Tree)> {
    sources().step_by(2).enumerate()
}

fn spelling(k: usize) -> &'static str {
    SPELLINGS[k % SPELLINGS.len()]
}

fn name(k: usize) -> &'static str {
    NAMES[k % NAMES.len()]
}

fn cast_to_bool((k, value): (usize, Tree)) -> Tree {
    cast(spelling(k), value)
}

fn bool_field((k, value): (usize, Tree)) -> Tree {
    field(spelling(k), k as u64, value)
}

fn set((k, value): (usize, Tree)) -> Tree {
    assign(var(name(k)), value)
}

fn store((k, value): (usize, Tree)) -> Tree {
    assign(pointed(spelling(k), k as u64), value)
}

/// What a pointer of this type to the byte at `offset` points at.
fn pointed(ty: &str, offset: u64) -> Tree {
    through(&format!("{ty}* "), place(FLAGS + offset))
}

/// A routine with a local of each type.
fn locals(types: &[&str]) -> Routine {
    let declared = NAMES.into_iter().zip(types);
    declared.fold(routine(), |routine, (name, ty)| routine.local(name, ty))
}

/// A statement that stores a structure.
fn filling(routine: Routine, fields: Vec<Tree>) -> Routine {
    let panel = through("struct panel *", place(FLAGS));
    routine.then(assign(panel, struct_init(fields)))
}

/// Fields that show the values.
fn bytes(values: impl Iterator<Item = Tree>) -> Vec<Tree> {
    let byte = |(k, value)| field("uint8_t", k as u64, value);
    (0..).zip(values).map(byte).collect()
}

/// A statement that evaluates all of these: an intrinsic with so many
/// arguments.
fn sampling(routine: Routine, values: impl Iterator<Item = Tree>) -> Routine {
    routine.then(intrinsic("sample", values.collect()))
}

/// For `constant_value`, to which no name is declared.
fn constants() -> Routine {
    let casts = every_second().map(cast_to_bool);
    let unknown = cast("bool", register(16, 0, 0, 0));
    let stored = ternary(condition_false(), store((0, int(256))), pointed("char", 0));
    let others = [unknown, stored, set((0, int(256)))];
    let near = NEIGHBOURS.map(|ty| cast(ty, int(0x8180)));
    sampling(locals(&SPELLINGS), casts.chain(others).chain(near)).returns()
}

/// The arguments are numbers of 64 bits, signed. To the second call the last
/// ones are missing.
fn parameters() -> Vec<Tiny> {
    let all = [numbers(8), numbers(4), numbers(2)].concat();
    let few = [numbers(7), numbers(5)].concat();
    vec![
        given("bool-parameters", with_parameters(), &all[..16]),
        given("bool-parameters-missing", with_parameters(), &few),
    ]
}

/// A parameter of each spelling, and two that are no bools.
fn with_parameters() -> Routine {
    let flags = NAMES.into_iter().zip(SPELLINGS);
    let near = [("where", "bool *"), ("width", "unsigned bool")];
    flags
        .chain(near)
        .fold(routine(), |routine, (name, ty)| routine.param(name, ty))
        .returns()
}

/// A call for each of some values, and one for what is unknown.
fn returned() -> Vec<Tiny> {
    let names = [
        "bool-returned-0",
        "bool-returned-1",
        "bool-returned-2",
        "bool-returned-3",
        "bool-returned-4",
        "bool-returned-5",
        "bool-returned-6",
        "bool-returned-unknown",
    ];
    let which = names.into_iter().zip(0..);
    which
        .map(|(name, k)| given(name, returning(), &[k]))
        .collect()
}

/// The values lie eleven apart, so that width and number change.
fn returning() -> Routine {
    let values = sources().step_by(11).chain([var("nothing")]);
    let cases: Vec<(i64, u32)> = (0..8).zip(1..9).collect();
    let start = Routine::new("f", 0x1000, "volatile bool const")
        .param("which", "uint8_t")
        .switch(None, var("which"), &cases);
    values.fold(start, |routine, value| routine.then(give(value)).returns())
}

fn unknowns() -> Vec<Tiny> {
    let casts = unknown_values().into_iter().enumerate();
    let casts = casts.map(|(k, value)| set((k, cast_to_bool((k, value)))));
    let names = unknown_values().into_iter().enumerate().map(set);
    let known = (0..14).map(|k| set((k, int(256))));
    let written = sampling(locals(&SPELLINGS), known);
    let fields = vec![bool_field((0, int(256))), bool_field((1, var("u")))];
    vec![
        alone("bool-unknown-casts", sampling(routine(), casts).returns()),
        alone("bool-unknown-names", sampling(written, names).returns()),
        alone("bool-unknown-field", filling(routine(), fields).returns()),
        alone(
            "bool-unknown-stored",
            routine().then(store((0, var("u")))).returns(),
        ),
    ]
}

/// Of each width, of each sign, and from each place that has one.
fn unknown_values() -> [Tree; 14] {
    let of = |bits| register(bits, 0, 0, 0);
    [
        of(8),
        of(16),
        of(24),
        of(32),
        of(33),
        of(40),
        of(48),
        of(56),
        of(64),
        cast("uint16_t", of(16)),
        pointed("unsigned", 0),
        call(function_name("g", 0x5000), vec![]),
        string_literal(),
        var("nothing"),
    ]
}

fn others() -> Vec<Tiny> {
    let world = World::default()
        .symbol("door_open", 1, PANEL)
        .symbol("feed", 2, PANEL)
        .symbol("homed", 1, PANEL)
        .region(PANEL, &[0, 1, 2, 7, 128, 255]);
    vec![
        within("bool-loads", loads(), world.clone()),
        within("bool-symbols", symbols(), world),
        alone("bool-addresses", addresses()),
        alone("bool-neighbours", neighbours()),
    ]
}

/// A load keeps its byte, whichever stands there.
fn loads() -> Routine {
    let load = |k: usize| through(&format!("{} *", spelling(k)), place(PANEL + k as u64));
    let kept = (0..6).map(|k| set((k, load(k))));
    let routine = Routine::new("f", 0x1000, "bool").local("pump_on", "bool");
    sampling(routine, kept)
        .then(assign(var("pump_on"), load(3)))
        .then(assign(pointed("uint16_t", 0), int(0x302)))
        .then(assign(var("tool_in"), pointed("bool", 0)))
        .then(assign(var("vent_open"), give(int(256))))
        .then(give(load(2)))
        .returns()
}

/// A symbol has a width and no type; a declared name beside it has one.
fn symbols() -> Routine {
    routine()
        .local("homed", "bool")
        .then(assign(var("door_open"), int(0x302)))
        .then(assign(var("feed"), int(0x302)))
        .then(assign(var("homed"), int(0x302)))
        .then(assign(var("door_open"), cast("bool", var("feed"))))
        .returns()
}

/// A Cast to bool as an address, which is converted but where a structure is
/// stored, and as what a branch goes by.
fn addresses() -> Routine {
    let at = || deref(cast("bool", place(FLAGS)));
    let fields = vec![field("bool", 0, int(256))];
    routine()
        .then(assign(at(), int(0x302)))
        .then(assign(at(), struct_init(fields)))
        .branch(None, cast("bool", int(256)), 2, 1)
        .returns()
        .then(give(binary(cast("bool", int(256)), Add, int(4))))
        .returns()
}

/// In every place what names no bool.
fn neighbours() -> Routine {
    let of = |k: usize| 8 * k as u64;
    let near = || NEIGHBOURS.into_iter().enumerate();
    let field_of = |(k, ty)| field(ty, of(k), int(0x8180));
    let cast_of = |(k, ty)| field("long", of(k + 9), cast(ty, int(0x8180)));
    let stored = near().map(|(k, ty)| assign(pointed(ty, of(k + 18)), int(0x8180)));
    let names = (0..9).map(|k| set((k, int(0x8180))));
    let mut start = sampling(sampling(locals(&NEIGHBOURS), names), stored);
    start.return_type = "bool unsigned".to_string();
    let fields = near().map(field_of).chain(near().map(cast_of)).collect();
    filling(start, fields).then(give(int(0x8180))).returns()
}
