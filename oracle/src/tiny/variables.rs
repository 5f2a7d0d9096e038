//! Which variable a name is, and of what type.

use super::{given, int, routine, within, Tiny};
use crate::source::World;
use crate::tree::*;

pub fn cases() -> Vec<Tiny> {
    vec![
        undeclared(),
        shadowed_symbol(),
        param_declared_twice(),
        local_declared_twice(),
        arguments_missing(),
        symbol_written(),
    ]
}

fn undeclared() -> Tiny {
    let routine = routine()
        .then(assign(var("b"), var("a")))
        .then(assign(var("a"), constant(0x1ff, 1)))
        .then(give(var("a")))
        .returns();
    given("undeclared", routine, &[])
}

/// A declared local that nothing has set reads the symbol of its name.
fn shadowed_symbol() -> Tiny {
    let routine = routine()
        .local("speed", "char")
        .then(assign(var("before"), var("speed")))
        .then(assign(var("speed"), int(0x1ff)))
        .then(give(var("speed")))
        .returns();
    let world = World::default()
        .symbol("speed", 2, 0x4000)
        .region(0x4000, &[0x34, 0x12]);
    within("shadowed-symbol", routine, world)
}

fn param_declared_twice() -> Tiny {
    let routine = routine()
        .param("p", "uint8_t")
        .param("p", "int16_t")
        .then(assign(var("q"), var("p")))
        .then(assign(var("p"), int(0x12345)))
        .then(give(var("p")))
        .returns();
    given("param-declared-twice", routine, &[0x1234, 0xfff0])
}

fn local_declared_twice() -> Tiny {
    let taking = call(function_name("g", 16), vec![address_of(var("p"))]);
    let routine = routine()
        .param("p", "uint8_t")
        .local("p", "long")
        .local("x", "uint8_t")
        .local("x", "int16_t")
        .then(taking)
        .returns();
    given("local-declared-twice", routine, &[0x1234])
}

fn arguments_missing() -> Tiny {
    let routine = routine()
        .param("a", "char")
        .param("b", "unsigned short")
        .then(give(var("b")))
        .returns();
    given("arguments-missing", routine, &[0x1280])
}

fn symbol_written() -> Tiny {
    let routine = routine()
        .then(assign(var("rpm"), constant(0x80, 1)))
        .then(give(var("rpm")))
        .returns();
    let world = World::default().symbol("rpm", 4, 0x4000);
    within("symbol-written", routine, world)
}
