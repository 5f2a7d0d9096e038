//! The shapes of generated cases.

use crate::ast::BinaryOp::{Add, Less};
use crate::generate::scene::Scene;
use crate::generate::Sources;
use crate::random::Random;
use crate::source::{Call, End};
use crate::tree::*;

/// A few blocks that lead to each other.
pub fn walk(random: Random) -> Sources {
    let (mut scene, mut routine, world) = Scene::new(random);
    let blocks = if scene.random.chance(1, 40) {
        0
    } else {
        scene.random.between(1, 5)
    };
    if blocks > 0 && scene.random.chance(5, 6) {
        scene.add_prologue(&mut routine);
    }
    for _ in 0..blocks {
        for _ in 0..*scene.random.pick(&[0, 1, 2, 3, 3, 4, 5, 7]) {
            scene.add_statement(&mut routine);
        }
        if scene.random.chance(if scene.boolean { 3 } else { 1 }, 6) {
            scene.add_return(&mut routine);
        }
        scene.close_block(&mut routine, blocks);
    }
    let steps = *scene
        .random
        .pick(&[0, 1, 8, 15, 20, 20, 25, 25, 30, 30, 30, 30, 40, 40, 40, 60]);
    let call = any_call(&mut scene, steps, routine.params.len());
    Sources {
        routine,
        world,
        call,
    }
}

/// Many names, types, locals, arguments and cases; trees with many children.
pub fn wide(random: Random) -> Sources {
    let (mut scene, mut routine, mut world) = Scene::new(random);
    for number in 0..scene.random.between(200, 440) {
        routine.spare_names.push(format!("v{number}"));
    }
    for _ in 0..scene.random.below(300) {
        routine.spare_types.push(scene.ty().to_string());
    }
    for number in 0..scene.random.below(460) {
        world = world.symbol(&format!("v{number}"), number as u8, number as u64);
    }
    while routine.params.len() < 16 {
        let name = format!("p{}", routine.params.len());
        scene.variables.push(name.clone());
        routine.params.push((name, scene.ty().to_string()));
    }
    for number in 0..scene.random.below(300) {
        let local = (format!("v{number}"), scene.ty().to_string());
        routine.locals.push(local);
    }
    let children = scene.random.below(300);
    let arguments = (0..children).map(|_| scene.expression(3)).collect();
    let tree = intrinsic("many", arguments);
    let root = routine.plant(tree);
    routine.state(None, root);
    let cases: Vec<(i64, u32)> = (0..900).map(|value| (value - 450, 1)).collect();
    let mut routine = routine.switch(Some(3), scene.expression(2), &cases);
    scene.add_statement(&mut routine);
    routine.close(End::Return);
    let call = any_call(&mut scene, 40, 16);
    Sources {
        routine,
        world,
        call,
    }
}

/// Chains of up to 64 nodes.
pub fn deep(random: Random) -> Sources {
    let (mut scene, mut routine, world) = Scene::new(random);
    for _ in 0..scene.random.between(1, 3) {
        let levels = scene.random.between(50, 64);
        let tree = chain(&mut scene, levels);
        let root = routine.plant(tree);
        routine.state(scene.place(), root);
    }
    routine.close(End::Return);
    let call = any_call(&mut scene, 20, routine.params.len());
    Sources {
        routine,
        world,
        call,
    }
}

/// A chain of exactly so many nodes.
fn chain(scene: &mut Scene, levels: usize) -> Tree {
    let mut tree = constant(scene.number(), 4);
    while tree.depth() < levels {
        tree = match scene.random.below(8) {
            0 => cast(scene.ty(), tree),
            1 => assign(var(&scene.name()), tree),
            2 => give(tree),
            3 => ternary(condition_true(), tree, scene.leaf()),
            4 => binary(scene.leaf(), Add, tree),
            5 if tree.depth() + 2 <= levels => struct_init(vec![field("int", 0, tree)]),
            6 => intrinsic("deep", vec![tree]),
            _ => binary(tree, Add, scene.leaf()),
        };
    }
    tree
}

/// A counting loop of some thousands of steps.
pub fn long(random: Random) -> Sources {
    let (mut scene, routine, world) = Scene::new(random);
    let rounds = scene.random.between(20, 700) as u64;
    let body = assign(
        deref(cast("char *", binary(var("#"), Add, constant(0x2000, 8)))),
        var("#"),
    );
    let routine = routine
        .local("#", "long")
        .at(8, assign(var("#"), constant(0, 1)))
        .goto(1)
        .at(12, body)
        .then(assign(var("x"), scene.expression(3)))
        .then(assign(var("#"), binary(var("#"), Add, constant(1, 1))))
        .branch(None, binary(var("#"), Less, constant(rounds, 4)), 1, 2)
        .then(give(var("x")))
        .returns();
    let call = any_call(&mut scene, 2_000, routine.params.len());
    Sources {
        routine,
        world,
        call,
    }
}

/// A loop of struct stores that writes 4,096 addresses, or a few more or
/// less.
pub fn around_the_limit(random: Random) -> Sources {
    let (mut scene, routine, world) = Scene::new(random);
    let fields = scene.random.between(20, 120) as u64;
    let rounds = 4_096 / (8 * fields);
    let rest = 4_096 - 8 * fields * rounds;
    let odd = *scene.random.pick(&[0, 0, 1, 1, 2, 7, 8]);
    let tail = (rest + odd).saturating_sub(scene.random.below(2) as u64);
    let stride = *scene
        .random
        .pick(&[8 * fields, 8 * fields + 3, (8 * fields).wrapping_neg()]);
    let base = *scene.random.pick(&[0x10_0000, u64::MAX - 2_000, 0x2000]);
    let eights = |count: u64| (0..count).map(|n| field("long", 8 * n, constant(n, 8)));
    let ones = (0..tail).map(|n| field("char", n, constant(n, 1)));
    let store = |fields| assign(deref(var("p")), struct_init(fields));
    let routine = routine
        .local("p", "char *")
        .local("#", "long")
        .then(assign(var("p"), constant(base, 8)))
        .then(assign(var("#"), constant(0, 1)))
        .goto(1)
        .then(store(eights(fields).collect()))
        .then(assign(var("p"), binary(var("p"), Add, constant(stride, 8))))
        .then(assign(var("#"), binary(var("#"), Add, constant(1, 1))))
        .branch(None, binary(var("#"), Less, constant(rounds, 4)), 1, 2)
        .then(assign(
            var("p"),
            binary(var("p"), Add, constant(1 << 40, 8)),
        ))
        .at(64, store(ones.collect()))
        .then(assign(deref(constant(0, 8)), scene.expression(2)))
        .returns();
    let call = any_call(&mut scene, 5_000, routine.params.len());
    Sources {
        routine,
        world,
        call,
    }
}

/// The same in one expression, so that `constant_value` meets it too.
pub fn one_expression_around_the_limit(random: Random) -> Sources {
    let (mut scene, mut routine, world) = Scene::new(random);
    let bytes = *scene.random.pick(&[4_095, 4_096, 4_097, 4_110]);
    // Of stores of 8 bytes each the last ones overlap.
    let place = |n: u64| 0x2000 + (n * 8).min(bytes - 8);
    let store = |n: u64| assign(deref(constant(place(n), 8)), constant(n, 8));
    let arguments = (0..514).map(store).collect();
    let root = routine.plant(intrinsic("many", arguments));
    routine.state(scene.place(), root);
    routine.close(End::Return);
    let call = any_call(&mut scene, 10, routine.params.len());
    Sources {
        routine,
        world,
        call,
    }
}

fn any_call(scene: &mut Scene, steps: u32, params: usize) -> Call {
    let count = match scene.random.below(6) {
        0 => scene.random.below(params + 1),
        1 => (params + scene.random.below(3)).min(16),
        _ => params,
    };
    Call {
        steps,
        depth: *scene.random.pick(&[8, 8, 8, 0, 1, 255]),
        arguments: (0..count).map(|_| scene.number()).collect(),
    }
}
