//! Cases on either side of every limit that is not in one field: counts,
//! lengths, orders, shapes of trees, sizes of files.

use crate::every;
use crate::files::LONGEST_FILE;
use crate::generate::Sources;
use crate::judge::Files;
use crate::kinds;
use crate::source::{file, Call, End, Symbol};
use crate::tree::*;

/// All of them.
pub fn edges() -> Vec<Files> {
    let mut found = Vec::new();
    found.extend(words());
    found.extend(heads());
    found.extend(trees().into_iter().map(with_tree));
    found.extend(roots());
    found.extend(worlds());
    found.extend(calls());
    found.extend(bodies());
    found.extend(lengths());
    found
}

/// The case of `every`, changed.
fn changed(change: impl FnOnce(&mut Sources)) -> Files {
    let mut sources = every::sources();
    change(&mut sources);
    sources.files()
}

/// Counts and lengths of names and types.
fn words() -> Vec<Files> {
    let count = |body: usize| {
        let bodies = every::sources().routine.bodies();
        crate::sweep::words(&bodies[body]) as usize
    };
    let (names, types) = (count(0), count(1));
    let word = |n: usize| format!("{n}_");
    let mut found = Vec::new();
    for most in [511, 512, 513] {
        found.push(changed(|case| {
            case.routine.spare_names = (names..most).map(word).collect();
        }));
        found.push(changed(|case| {
            case.routine.spare_types = (types..most).map(word).collect();
        }));
        found.push(changed(|case| {
            case.world.spare_names = (case.world.symbols.len()..most).map(word).collect();
        }));
    }
    for length in [0, 1, 63, 64, 65, 66, 255] {
        let word = "w".repeat(length);
        found.push(changed(|case| {
            case.routine.spare_names = vec![word.clone()]
        }));
        found.push(changed(|case| {
            case.routine.spare_types = vec![word.clone()]
        }));
        found.push(changed(|case| case.world.spare_names = vec![word.clone()]));
    }
    found
}

fn heads() -> Vec<Files> {
    let declared = |count: usize| vec![("n".to_string(), "int".to_string()); count];
    let params = [0, 15, 16, 17, 18, 255].map(|count| {
        changed(|case| {
            case.routine.params = declared(count);
        })
    });
    let locals = [0, 1, 200, 300].map(|count| {
        changed(|case| {
            case.routine.locals = declared(count);
        })
    });
    params.into_iter().chain(locals).collect()
}

/// The case with one more tree, which no root names.
fn with_tree(tree: Tree) -> Files {
    changed(|case| {
        case.routine.plant(tree);
    })
}

/// Each kind of node with no child to four, calls around their limit, fields
/// in and out of place, and long chains.
fn trees() -> Vec<Tree> {
    let mut found = Vec::new();
    for kind in 0..=kinds::PLAIN {
        for count in 0..5 {
            found.push(held(of_kind(kind, count)));
        }
        found.push(Tree {
            children: vec![field("int", 0, constant(1, 1))],
            ..of_kind(kind, 0)
        });
    }
    for count in [15, 16, 17, 18] {
        found.push(call(var("n"), vec![constant(1, 1); count]));
    }
    found.push(field("int", 0, constant(1, 1)));
    found.push(struct_init(vec![constant(1, 1)]));
    found.push(struct_init(vec![field("int", 0, constant(1, 1)), plain()]));
    for count in [63, 64, 65, 66] {
        found.push(chain(count));
        found.push(struct_chain(count));
    }
    found
}

/// A node of a kind with so many children that fit it, and no wrong field.
fn of_kind(kind: u8, count: usize) -> Tree {
    let child = match kind {
        kinds::STRUCT_INIT => field("int", 0, constant(1, 1)),
        _ => constant(1, 1),
    };
    let model = match kind {
        kinds::CAST => cast("int", plain()),
        kinds::FIELD => field("int", 0, plain()),
        kinds::CONSTANT => constant(1, 1),
        kinds::VAR => var("n"),
        kinds::FUNCTION_NAME => function_name("n", 1),
        kinds::INTRINSIC => intrinsic("n", vec![]),
        _ => plain(),
    };
    Tree {
        kind,
        children: vec![child; count],
        ..model
    }
}

/// A field is held by a StructInit.
fn held(tree: Tree) -> Tree {
    if tree.kind == kinds::FIELD {
        struct_init(vec![tree])
    } else {
        tree
    }
}

/// So many nodes, one under the other.
fn chain(count: usize) -> Tree {
    (1..count).fold(constant(1, 1), |tree, _| deref(tree))
}

/// The same, with fields in it.
fn struct_chain(count: usize) -> Tree {
    let mut tree = constant(1, 1);
    while tree.depth() + 2 <= count {
        tree = struct_init(vec![field("int", 0, tree)]);
    }
    if tree.depth() < count {
        tree = deref(tree);
    }
    tree
}

/// Roots that are a node's, a field's, or no node's.
fn roots() -> Vec<Files> {
    let mut found = Vec::new();
    for offset in 0..4 {
        // A StructInit, its field, the field's value, and no node.
        let planted = |case: &mut Sources| {
            let tree = struct_init(vec![field("int", 0, constant(1, 1))]);
            case.routine.plant(tree) + offset
        };
        found.push(changed(|case| {
            let root = planted(case);
            case.routine.statements[0].1 = root;
        }));
        found.push(changed(|case| {
            let root = planted(case);
            let cases = vec![(1, 1)];
            let end = End::Switch {
                at: None,
                root,
                cases,
            };
            case.routine.blocks[0].end = end;
        }));
        found.push(changed(|case| {
            let root = planted(case);
            let (at, taken, next) = (Some(1), 1, 2);
            let end = End::Branch {
                at,
                root,
                taken,
                next,
            };
            case.routine.blocks[0].end = end;
        }));
    }
    found
}

fn worlds() -> Vec<Files> {
    let regions = |list: &[(u64, usize)]| {
        changed(|case| {
            let region = |&(address, length)| (address, vec![9; length]);
            case.world.regions = list.iter().map(region).collect();
        })
    };
    let top = u64::MAX;
    let mut found = vec![
        regions(&[]),
        regions(&[(0, 1), (1, 1)]),
        regions(&[(0, 2), (1, 1)]),
        regions(&[(0, 2), (3, 1)]),
        regions(&[(8, 1), (4, 1)]),
        regions(&[(8, 1), (8, 1)]),
        regions(&[(8, 0)]),
        regions(&[(8, 4), (12, 0)]),
        regions(&[(top, 1)]),
        regions(&[(top, 2)]),
        regions(&[(top - 3, 4)]),
        regions(&[(top - 3, 5)]),
        regions(&[(top - 3, 4), (top, 1)]),
    ];
    found.push(changed(|case| {
        let double: Symbol = case.world.symbols[0].clone();
        case.world.symbols.push(double);
    }));
    found.push(changed(|case| case.world.symbols.clear()));
    found
}

fn calls() -> Vec<Files> {
    let limits = [
        (0, 0, 0),
        (1, 0, 1),
        (1_000_000, 255, 15),
        (1_000_000, 255, 16),
        (1_000_000, 255, 17),
        (1_000_001, 255, 16),
        (1_000_000, 256, 16),
    ];
    let call = |(steps, depth, arguments)| {
        changed(|case| {
            case.call = Call {
                steps,
                depth,
                arguments: vec![3; arguments],
            };
        })
    };
    limits.map(call).to_vec()
}

/// The three files as bodies.
type Parts = [Vec<Vec<u8>>; 3];

fn parts() -> Parts {
    let case = every::sources();
    [
        case.routine.bodies(),
        case.world.bodies(),
        case.call.bodies(),
    ]
}

/// Each body longer or shorter by a few bytes, the table agreeing.
fn bodies() -> Vec<Files> {
    let parts = parts();
    let mut found = Vec::new();
    for which in 0..3 {
        for body in 0..parts[which].len() {
            for change in [-13, -8, -4, -1, 1, 4, 8, 13] {
                let mut parts = parts.clone();
                let part = &mut parts[which][body];
                let length = part.len().saturating_add_signed(change);
                part.resize(length, 0);
                found.push(files(&parts));
            }
        }
    }
    found
}

fn files(parts: &Parts) -> Files {
    Files {
        routine: file(&parts[0]),
        world: file(&parts[1]),
        call: file(&parts[2]),
    }
}

/// A byte put into the node body.
type Fault = (usize, u8);

/// Faults of a Var, whose number is 1, and of a Constant, whose number is 4: in
/// the kind, in what the kind bars, in what it does not use.
const FAULTS: [Fault; 6] = [(20, 20), (23, 2), (21, 1), (80, 20), (84, 9), (81, 1)];

/// Each choice of these faults, then each one beside a fault of another number.
pub fn faulty_nodes() -> Vec<Files> {
    let chosen = |choice: usize| {
        let of = (0..FAULTS.len()).filter(move |fault| choice >> fault & 1 == 1);
        of.map(|fault| FAULTS[fault]).collect::<Vec<Fault>>()
    };
    let choices = 1..1 << FAULTS.len();
    let mut found: Vec<Files> = choices
        .map(|choice| faulty(&chosen(choice), |_| {}))
        .collect();
    for other in OTHERS {
        found.push(faulty(&[], other));
        found.extend(FAULTS.iter().map(|fault| faulty(&[*fault], other)));
    }
    found
}

/// What is faulty beside nodes: a head, a part of a node, a span, a statement,
/// a world, a call.
const OTHERS: [fn(&mut Parts); 6] = [
    |parts| parts[0][2][12] = 17,
    |parts| parts[0][3].extend([20; 7]),
    |parts| parts[0][3][8] = 0,
    |parts| parts[0][4][0] = 2,
    |parts| parts[1][2].truncate(1),
    |parts| parts[2][0].truncate(7),
];

/// The case of `every` with these faults and changed.
fn faulty(faults: &[Fault], change: impl FnOnce(&mut Parts)) -> Files {
    let mut parts = parts();
    for &(at, byte) in faults {
        parts[0][3][at] = byte;
    }
    change(&mut parts);
    files(&parts)
}

/// Files of about the most bytes, well but for that; short files; a byte too
/// many or too few.
fn lengths() -> Vec<Files> {
    let whole = every::sources().files();
    let mut found = Vec::new();
    for length in [LONGEST_FILE - 1, LONGEST_FILE, LONGEST_FILE + 1] {
        found.push(changed(|case| {
            case.world.regions.clear();
            let room = length - case.world.file().len() - 12;
            case.world.regions = vec![(0x2000, vec![0; room])];
        }));
        found.push(long_routine(length));
    }
    for length in [0, 1, 2, 5, 6] {
        let cut = |bytes: &[u8]| bytes[..length].to_vec();
        found.push(Files {
            routine: cut(&whole.routine),
            ..whole.clone()
        });
        found.push(Files {
            world: cut(&whole.world),
            ..whole.clone()
        });
        found.push(Files {
            call: cut(&whole.call),
            ..whole.clone()
        });
    }
    for (routine, world, call) in [(1, 0, 0), (0, 1, 0), (0, 0, 1)] {
        let mut longer = whole.clone();
        longer.routine.resize(whole.routine.len() + routine, 0);
        longer.world.resize(whole.world.len() + world, 0);
        longer.call.resize(whole.call.len() + call, 0);
        found.push(longer);
    }
    found
}

/// A routine file of exactly so many bytes, filled with plain statements and
/// a spare type.
fn long_routine(length: usize) -> Files {
    changed(|case| {
        let room = length - case.routine.file().len() - 1;
        case.routine.spare_types = vec!["t".repeat(room % 20)];
        for _ in 0..room / 20 {
            case.routine.plant(plain());
        }
    })
}
