//! Loads and stores.

use super::{int, place, through, within, Tiny};
use crate::ast::BinaryOp::*;
use crate::source::{Routine, World};
use crate::tree::*;

const LAST: u64 = u64::MAX;

pub fn cases() -> Vec<Tiny> {
    vec![
        overlap(),
        none_hides_later_bytes(),
        wraps_at_the_end(),
        read_stops_at_the_end(),
        struct_reads_its_field(),
        address_not_widened_by_sign(),
        touching_regions(),
    ]
}

fn routine() -> Routine {
    Routine::new("f", 0, "uint64_t")
}

fn image() -> Vec<u8> {
    (0xa0..0xb0).collect()
}

fn store(ty: &str, at: u64, value: u64) -> Tree {
    assign(through(ty, place(at)), constant(value, 8))
}

fn load(name: &str, ty: &str, at: u64) -> Tree {
    assign(var(name), through(ty, place(at)))
}

/// Stores over each other and over the image, and loads across them.
fn overlap() -> Tiny {
    let routine = routine()
        .then(store("int *", 0x2004, 0x11223344))
        .then(store("uint8_t *", 0x2005, 0x1ff))
        .then(load("x", "short *", 0x2007))
        .then(give(deref(place(0x2002))))
        .returns();
    within(
        "overlap",
        routine,
        World::default().region(0x2000, &image()),
    )
}

/// The image has 0x3000 on, but a read from before it is answered with none.
fn none_hides_later_bytes() -> Tiny {
    let routine = routine()
        .then(store("char *", 0x2fff, 1))
        .then(load("x", "int *", 0x2fff))
        .then(store("char *", 0x3010, 2))
        .then(load("y", "int *", 0x300e))
        .then(load("z", "short *", 0x300f))
        .returns();
    let world = World::default().region(0x3000, &image());
    within("none-hides-later-bytes", routine, world)
}

fn wraps_at_the_end() -> Tiny {
    let routine = routine()
        .then(store("int *", LAST - 1, 0x04030201))
        .then(assign(var("x"), deref(place(LAST - 3))))
        .then(give(through("int *", place(LAST - 1))))
        .returns();
    let world = World::default().region(LAST - 3, &[9, 8, 7, 6]);
    within("wraps-at-the-end", routine, world)
}

/// A read does not go on at address 0, though there is a region.
fn read_stops_at_the_end() -> Tiny {
    let routine = routine()
        .then(load("x", "int *", LAST - 1))
        .then(store("char *", 0, 3))
        .then(load("y", "int *", LAST - 1))
        .then(give(through("short *", place(LAST - 1))))
        .returns();
    let world = World::default()
        .region(0, &[3, 4, 5])
        .region(LAST - 1, &[1, 2]);
    within("read-stops-at-the-end", routine, world)
}

/// A later field reads what an earlier one wrote, and one lies before the
/// base.
fn struct_reads_its_field() -> Tiny {
    let fields = vec![
        field("int", 0, int(0x1234567)),
        field("short", 4, through("short *", var("p"))),
        field("char", LAST, constant(3, 1)),
    ];
    let routine = Routine::new("f", 0, "int")
        .local("p", "struct s *")
        .then(assign(var("p"), place(0x2000)))
        .then(assign(through("struct s *", var("p")), struct_init(fields)))
        .then(give(through("int *", binary(var("p"), Add, int(2)))))
        .returns();
    let world = World::default().region(0x2006, &[1, 2]);
    within("struct-reads-its-field", routine, world)
}

fn address_not_widened_by_sign() -> Tiny {
    let routine = Routine::new("f", 0, "int")
        .then(give(through("uint8_t *", constant(0xff, 1))))
        .returns();
    let world = World::default().region(0xfe, &[5, 6, 7]);
    within("address-not-widened-by-sign", routine, world)
}

fn touching_regions() -> Tiny {
    let routine = routine().then(give(deref(place(0x2002)))).returns();
    let world = World::default()
        .region(0x2000, &[1, 2, 3, 4])
        .region(0x2004, &[5, 6, 7, 8, 9, 10]);
    within("touching-regions", routine, world)
}
