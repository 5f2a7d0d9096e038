//! The refusals of nodes, said by hand for bytes put into the node body of
//! `every`.

use oracle::every;
use oracle::generate::Sources;
use oracle::judge::{judge, judge_constant, Files, LEAST_WORKSPACE};
use oracle::source::file;

/// The case with these bytes at these places of its node body. Its first nodes
/// are an Assign, a Var, a Binary, a Var and a Constant.
fn with(faults: &[(usize, u8)]) -> Files {
    let sources: Sources = every::sources();
    let mut bodies = sources.routine.bodies();
    for (place, byte) in faults {
        bodies[3][*place] = *byte;
    }
    Files {
        routine: file(&bodies),
        ..sources.files()
    }
}

/// Both numbers of the answer, and that `constant_value` has the same.
fn refused(faults: &[(usize, u8)]) -> (u32, u32) {
    let files = with(faults);
    let verdict = judge(&files, 65_536, LEAST_WORKSPACE);
    let answer = (verdict.number, verdict.length);
    match judge_constant(&files.routine, 0, LEAST_WORKSPACE) {
        Ok(_) => assert_eq!(verdict.number, 0),
        Err(refusal) => assert_eq!((refusal.number, refusal.node), answer),
    }
    answer
}

#[test]
fn each_check_of_a_node() {
    // Kinds 20 and 255.
    assert_eq!(refused(&[(80, 20)]), (5, 4));
    assert_eq!(refused(&[(0, 255)]), (5, 0));
    // A Constant of 0 and of 9 bytes, a Var's name of 512, a Binary's flag.
    assert_eq!(refused(&[(84, 0)]), (30, 4));
    assert_eq!(refused(&[(84, 9)]), (30, 4));
    assert_eq!(refused(&[(23, 2)]), (30, 1));
    assert_eq!(refused(&[(41, 18)]), (30, 2));
    assert_eq!(refused(&[(41, 17)]).0, 0);
    // An Assign's flag, a Var's width, a Binary's reference, an Assign's value.
    assert_eq!(refused(&[(1, 1)]), (31, 0));
    assert_eq!(refused(&[(24, 1)]), (31, 1));
    assert_eq!(refused(&[(43, 1)]), (31, 2));
    assert_eq!(refused(&[(19, 1)]), (31, 0));
}

#[test]
fn the_first_check_of_the_lowest_node() {
    let (kind, barred, unused) = ((80, 20), (84, 9), (81, 1));
    assert_eq!(refused(&[barred, unused]), (30, 4));
    assert_eq!(refused(&[kind, barred, unused]), (5, 4));
    // Behind a Var with a flag, and behind one with no name.
    assert_eq!(refused(&[kind, (21, 1)]), (31, 1));
    assert_eq!(refused(&[kind, (23, 2)]), (30, 1));
    assert_eq!(refused(&[barred, (21, 1)]), (31, 1));
    // The span of the first node is looked at after all nodes.
    assert_eq!(refused(&[(8, 0)]), (6, 0));
    assert_eq!(refused(&[(8, 0), unused]), (31, 4));
}
