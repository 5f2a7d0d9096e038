//! Document 01's numbers for node kinds and terminators.

pub const CONSTANT: u8 = 0;
pub const VAR: u8 = 1;
pub const REGISTER: u8 = 2;
pub const STRING_LITERAL: u8 = 3;
pub const FUNCTION_NAME: u8 = 4;
pub const CONDITION_TRUE: u8 = 5;
pub const CONDITION_FALSE: u8 = 6;
pub const CONSTANT_CONDITION: u8 = 7;
pub const CAST: u8 = 8;
pub const DEREF: u8 = 9;
pub const ADDRESS_OF: u8 = 10;
pub const TERNARY: u8 = 11;
pub const BINARY: u8 = 12;
pub const ASSIGN: u8 = 13;
pub const CALL: u8 = 14;
pub const INTRINSIC: u8 = 15;
pub const RETURN: u8 = 16;
pub const STRUCT_INIT: u8 = 17;
pub const FIELD: u8 = 18;
pub const PLAIN: u8 = 19;

/// The kinds' names, by number.
pub const NAMES: [&str; 20] = [
    "Constant",
    "Var",
    "Register",
    "StringLiteral",
    "FunctionName",
    "ConditionTrue",
    "ConditionFalse",
    "ConstantCondition",
    "Cast",
    "Deref",
    "AddressOf",
    "Ternary",
    "Binary",
    "Assign",
    "Call",
    "Intrinsic",
    "Return",
    "StructInit",
    "field",
    "plain statement",
];

/// Terminators.
pub const END_RETURN: u8 = 0;
pub const END_GOTO: u8 = 1;
pub const END_BRANCH: u8 = 2;
pub const END_SWITCH: u8 = 3;
