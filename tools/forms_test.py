#!/usr/bin/env python3
"""Tests of forms.py: tools/forms_test.py. Files are judged by files_reference.py, which reads the papers on its own."""
import random
import re
import struct
import subprocess
import sys
import tempfile
import unittest
from collections import Counter
from itertools import permutations
from pathlib import Path

sys.dont_write_bytecode = True
import files_reference as reference
import forms
from files_reference import block, call_body, file_of, head, listed, region, statement, symbol, tree

ROOT = Path(__file__).resolve().parent.parent
LISTINGS = ROOT / "oracle/target/release/listings"
DOCUMENT = (ROOT / "docs/FORMS.md").read_text()
ROUTINES = 250
DAMAGES = 4
ORIGINALS = 400
SPOILT = 600


def call(*fields):
    return file_of([call_body(*fields)])


def body(routine, number):
    return reference.bodies(routine, 6)[number]


class Case(unittest.TestCase):
    maxDiff = None

    def check_files(self, files):
        """Accepted files are shown and made again byte for byte; of refused ones number and node are told."""
        files = tuple(files)
        refusal = reference.refusal(*files)
        if refusal != reference.ACCEPTED:
            with self.assertRaises(forms.Refused) as caught:
                forms.show(files)
            self.assertEqual((caught.exception.number, caught.exception.node), refusal)
            return False
        text = forms.show(files)
        self.assertEqual(forms.make(text), files)
        return True

    def check_text(self, text):
        """A text makes accepted files, and shows as a normal form."""
        files = forms.make(text)
        self.assertEqual(reference.refusal(*files), reference.ACCEPTED)
        normal = forms.show(files)
        self.assertEqual(forms.make(normal), files)
        return normal


# ---- single routines

HEAD = "void f(int x, char *p) at 0x10\n{\n    short y;\n"
TAIL = "}\n\nworld\n{\n}\n\ncall() steps 10000 depth 8;\n"
NAMES = ["f", "g", "p", "x", "y"]
TYPES = ["void", "int", "char *", "short"]
G, P, X, Y = (tree(reference.VAR, ref=number) for number in (1, 2, 3, 4))


def one_block(lines):
    return HEAD + "\nblock_0:\n" + lines + TAIL


def routine_of(nodes, statements, blocks, names=NAMES, types=TYPES):
    top = struct.pack("<HQHB", names.index("f"), 16, 0, 2)
    top += b"".join(struct.pack("<HH", names.index(name), kind) for name, kind in (("x", 1), ("p", 2), ("y", 3)))
    return file_of([listed(names), listed(types), top, nodes, statements, blocks])


def used(nodes):
    """The names that a routine of these nodes uses."""
    refs = [struct.unpack_from("<BBH", nodes, at) for at in range(0, len(nodes), 20)]
    return {"f", "x", "p", "y"} | {NAMES[ref] for kind, _, ref in refs if kind in forms.NAMED}


EMPTY = file_of([b"", b"", b""])
USUAL = file_of([struct.pack("<II", 10000, 8)])

# each kind as it is shown, with the nodes it stands for; G is a name that only some use
R = reference
KINDS = [
    ("7", tree(R.CONSTANT, width=4, value=7)),
    ("200i8", tree(R.CONSTANT, width=1, value=200)),
    ("300i8", tree(R.CONSTANT, width=1, value=300)),
    ("60000i16", tree(R.CONSTANT, width=2, value=60000)),
    ("1i24", tree(R.CONSTANT, width=3, value=1)),
    ("99999i40", tree(R.CONSTANT, width=5, value=99999)),
    ("0x186a0i48", tree(R.CONSTANT, width=6, value=100000)),
    ("0i56", tree(R.CONSTANT, width=7)),
    ("9i64", tree(R.CONSTANT, width=8, value=9)),
    ("0xffffffffffffffffi64", tree(R.CONSTANT, width=8, value=2 ** 64 - 1)),
    ("g", G),
    ("register(class=255, index=65535, bits=0xffffffff, position=0xffffffffffffffff)",
     tree(R.REGISTER, flag=255, ref=65535, width=2 ** 32 - 1, value=2 ** 64 - 1)),
    ("register(class=1, index=2, bits=3, position=4)", tree(R.REGISTER, flag=1, ref=2, width=3, value=4)),
    ("string", tree(R.STRING)),
    ("g@0x0", tree(R.FUNCTION, ref=1)),
    ("g@0xffffffffffffffff", tree(R.FUNCTION, ref=1, value=2 ** 64 - 1)),
    ("true", tree(R.TRUE)),
    ("false", tree(R.FALSE)),
    ("folded true", tree(R.DECIDED, flag=1)),
    ("folded false", tree(R.DECIDED)),
    ("(int)x", tree(R.CAST, X, ref=1)),
    ("*(char *)p", tree(R.DEREF, tree(R.CAST, P, ref=2))),
    ("&y", tree(R.ADDRESS, Y)),
    ("&&*y", tree(R.ADDRESS, tree(R.ADDRESS, tree(R.DEREF, Y)))),
    ("x & &y", tree(R.BINARY, X, tree(R.ADDRESS, Y), flag=5)),
    ("x / *p", tree(R.BINARY, X, tree(R.DEREF, P), flag=3)),
    ("x ? y : p", tree(R.TERNARY, X, Y, P)),
    ("(x ? y : p) ? (x ? y : p) : x ? y : p", tree(R.TERNARY, *[tree(R.TERNARY, X, Y, P)] * 3)),
    ("x = y", tree(R.ASSIGN, X, Y)),
    ("x = y = p", tree(R.ASSIGN, X, tree(R.ASSIGN, Y, P))),
    ("(x = y) = p", tree(R.ASSIGN, tree(R.ASSIGN, X, Y), P)),
    ("(x + y) = 1i8", tree(R.ASSIGN, tree(R.BINARY, X, Y), tree(R.CONSTANT, value=1))),
    ("*x = y", tree(R.ASSIGN, tree(R.DEREF, X), Y)),
    ("g@0x10()", tree(R.CALL, tree(R.FUNCTION, ref=1, value=16))),
    ("g(x, &y, p = x)", tree(R.CALL, G, X, tree(R.ADDRESS, Y), tree(R.ASSIGN, P, X))),
    ("(*p)(x)(y)", tree(R.CALL, tree(R.CALL, tree(R.DEREF, P), X), Y)),
    ("((int)p)(x)", tree(R.CALL, tree(R.CAST, P, ref=1), X)),
    ("intrinsic g()", tree(R.INTRINSIC, ref=1)),
    ("intrinsic g(x, (return y))", tree(R.INTRINSIC, X, tree(R.RETURN, Y), ref=1)),
    ("return", tree(R.RETURN)),
    ("return x = y", tree(R.RETURN, tree(R.ASSIGN, X, Y))),
    ("return (return)", tree(R.RETURN, tree(R.RETURN))),
    ("{}", tree(R.STRUCT)),
    ("*p = { short at 0 = x, char * at 0xffffffffffffffff = {} }",
     tree(R.ASSIGN, tree(R.DEREF, P), tree(R.STRUCT, tree(R.FIELD, X, ref=3), tree(R.FIELD, tree(R.STRUCT), ref=2, value=2 ** 64 - 1)))),
    ("plain", tree(R.PLAIN)),
] + [("x %s y" % sign, tree(R.BINARY, X, Y, flag=flag)) for flag, sign in enumerate(
    "+ - * / % & | ^ << >> == != < <= > >= && ||".split())]


class Kinds(Case):
    def test_each_kind_both_ways(self):
        for text, nodes in KINDS:
            with self.subTest(text):
                end = "" if text.startswith("return") else "    end;\n"
                whole = one_block("    %s;  // statement 0, node 0\n%s" % (text, end))
                files = forms.make(whole)
                self.assertEqual(reference.refusal(*files), reference.ACCEPTED)
                wanted = sorted(used(nodes))
                self.assertEqual(reference.names_of(body(files[0], 0)), [name.encode() for name in wanted])
                if "g" in wanted:
                    self.assertEqual(files, (routine_of(nodes, statement(0), block(1)), EMPTY, USUAL))
                self.assertEqual(forms.show(files), whole)

    def test_all_kinds_are_there(self):
        found = {nodes[at] for _, nodes in KINDS for at in range(0, len(nodes), 20)}
        self.assertEqual(found, set(range(20)))

    def test_operators_bind_as_in_c(self):
        rows = ["||", "&&", "|", "^", "&", "== !=", "< <= > >=", "<< >>", "+ -", "* / %"]
        levels = {sign: level for level, row in enumerate(rows) for sign in row.split()}
        for first in levels:
            for second in levels:
                bare, left, right = ("tree %s;" % form for form in (
                    "x %s y %s p" % (first, second), "(x %s y) %s p" % (first, second), "x %s (y %s p)" % (first, second)))
                wanted = left if levels[first] >= levels[second] else right
                made = [body(forms.make(HEAD + text + TAIL)[0], 3) for text in (bare, wanted)]
                self.assertEqual(made[0], made[1], bare)
                self.assertNotEqual(*(body(forms.make(HEAD + text + TAIL)[0], 3) for text in (left, right)))


# ---- texts and their normal forms

TRIM = """int32_t trim(uint8_t dwell) at 0x1000
{
    int8_t sum;

block_0:
    0x1000: sum = dwell + 200i8;  // statement 0, node 0
    return sum - 50i8;  // statement 1, node 5
}

world
{
}

call(100) steps 10 depth 8;
"""

# what may be written, and how it is shown
NORMAL = [
    ("a:x=-1;end;", "    x = 0xffffffff;  // statement 0, node 0\n    end;\n"),
    ("a:x=-1i8;x=-128i8;end;", "    x = 255i8;  // statement 0, node 0\n    x = 128i8;  // statement 1, node 3\n    end;\n"),
    ("a: x = 0XfFi64; end;", "    x = 0xffi64;  // statement 0, node 0\n    end;\n"),
    ("a: x = 7i32; return; end;", "    x = 7;  // statement 0, node 0\n    return;  // statement 1, node 3\n"),
    ("a: ((x)) = (((y)) + (p)); return (x);", "    x = y + p;  // statement 0, node 0\n    return x;  // statement 1, node 5\n"),
    ("a: x -1; x - -1; end;", "    x - 1;  // statement 0, node 0\n    x - 0xffffffff;  // statement 1, node 3\n    end;\n"),
    ("a: register(bits=8); register(); end;",
     "    register(class=0, index=0, bits=8, position=0);  // statement 0, node 0\n"
     "    register(class=0, index=0, bits=0, position=0);  // statement 1, node 1\n    end;\n"),
    ("a: x | y | p; x & y | p; x < y == p; x + y < p << 1; end;",
     "    x | y | p;  // statement 0, node 0\n    (x & y) | p;  // statement 1, node 5\n    (x < y) == p;  // statement 2, node 10\n"
     "    x + y < p << 1;  // statement 3, node 15\n    end;\n"),
    ("a: x || y && p; x << y + p; end;", "    x || (y && p);  // statement 0, node 0\n    x << (y + p);  // statement 1, node 5\n    end;\n"),
    ("/* one\n two */ a: // three\n 16 : x; goto a; b: goto block_7;",
     "    0x10: x;  // statement 0, node 0\n    goto block_0;\n\nblock_1:\n    goto block_7;\n"),
    ("a: 0x0: if (x) goto b; else goto a; b: switch (y) { case -1: goto b; case 0x10: goto a; case -1: goto block_4294967295; }",
     "    0x0: if (x) goto block_1; else goto block_0;  // node 0\n\nblock_1:\n    switch (y) {  // node 1\n        case -1: goto block_1;\n"
     "        case 16: goto block_0;\n        case -1: goto block_4294967295;\n    }\n"),
    ("a: switch (x) { }", "    switch (x) {  // node 0\n    }\n"),
    ("a: x = y + 1; 0x5: node 2; 6: node 0; if (node 3) goto a; else goto a;",
     "    x = y + 1;  // statement 0, node 0\n    0x5: node 2;  // statement 1, node 2\n    0x6: node 0;  // statement 2, node 0\n"
     "    if (node 3) goto block_0; else goto block_0;  // node 3\n"),
    ("tree x; a: tree y; p; tree plain; return; tree string;",
     "    tree x;  // node 0\n    tree y;  // node 1\n    p;  // statement 0, node 2\n    tree plain;  // node 3\n"
     "    return;  // statement 1, node 4\n    tree string;  // node 5\n"),
    ("a: node 1; tree x; y; end;", "    tree x;  // node 0\n    y;  // statement 0, node 1\n    node 1;  // statement 1, node 1\n    end;\n"),
    ("a: node 1; x; end; tree y;", "    node 1;  // statement 0, node 1\n    x;  // statement 1, node 0\n    end;\n    tree y;  // node 1\n"),
    ("a: node 1; x; tree y; p; end;",
     "    node 1;  // statement 0, node 1\n    x;  // statement 1, node 0\n    tree y;  // node 1\n    p;  // statement 2, node 2\n    end;\n"),
    ("a: (unsigned)x; (x*)y; (uint8_t)(x); (\"x\")y; (struct s)x; end;",
     "    (unsigned)x;  // statement 0, node 0\n    (x*)y;  // statement 1, node 2\n    (uint8_t)x;  // statement 2, node 4\n"
     "    (\"x\")y;  // statement 3, node 6\n    (struct s)x;  // statement 4, node 8\n    end;\n"),
    ("a: (x)(y); (x * y); end;", "    x(y);  // statement 0, node 0\n    x * y;  // statement 1, node 3\n    end;\n"),
    ("a: `x` = `a-b`@2; end;", "    x = `a-b`@0x2;  // statement 0, node 0\n    end;\n"),
    ("a: `return` + `int` + `my_t` + `\\``+`\\\\`; end;",
     "    `return` + `int` + `my_t` + `\\`` + `\\\\`;  // statement 0, node 0\n    end;\n"),
    ("int `int`; foo z; \"\" z; \"a\\\"\\\\\" z; #1 z; char *const w; a: end;",
     "    int `int`;\n    foo z;\n    \"\" z;\n    \"a\\\"\\\\\" z;\n    int z;\n    char *const w;\n\nblock_0:\n    end;\n"),
]


class Normal(Case):
    def test_trim_is_document_01s(self):
        wanted = (
            file_of([listed(["dwell", "sum", "trim"]), listed(["int32_t", "uint8_t", "int8_t"]), head(2),
                     tree(R.ASSIGN, tree(R.VAR, ref=1), tree(R.BINARY, tree(R.VAR, ref=0), tree(R.CONSTANT, value=200)))
                     + tree(R.RETURN, tree(R.BINARY, tree(R.VAR, ref=1), tree(R.CONSTANT, value=50), flag=1)),
                     statement(0, 1, 0x1000) + statement(5), block(2)]),
            EMPTY, call(10, 8, [100]))
        self.assertEqual(forms.make(TRIM), wanted)
        self.assertEqual(forms.show(wanted), TRIM)

    def test_normal_forms(self):
        for text, wanted in NORMAL:
            with self.subTest(text):
                shown = self.check_text(HEAD + text + "}")
                lead = HEAD if "z;" in text or text.startswith("tree") else HEAD + "\nblock_0:\n"
                wanted = wanted if not text.startswith("tree") else "\nblock_0:\n" + wanted
                self.assertEqual(shown, lead + wanted + TAIL)

    def test_examples(self):
        found = sorted(ROOT.glob("examples/*/form.txt"))
        self.assertGreaterEqual(len(found), 5)
        for form in found:
            with self.subTest(form.parent.name):
                self.check_text(form.read_text())

    def test_the_documents_example(self):
        self.check_text(DOCUMENT.split("```\n")[1])

    def test_world_and_call(self):
        text = HEAD + "} world { names q, `1`; symbol b at 5; symbol a at 0xff size 255; 32: 0a FF -1i16 0x1ffi16 1i24; 5: 00; 6: 7f; } call(1, -1, 0x10) depth 0;"
        shown = self.check_text(text)
        self.assertEqual(shown.partition("world")[2], """
{
    names `1`, q;
    symbol a at 0xff size 255;
    symbol b at 0x5;
    0x5: 00;
    0x6: 7f;
    0x20: 0a ff ff ff ff 01 01 00 00;
}

call(1, 0xffffffffffffffff, 16) steps 10000 depth 0;
""")
        self.assertEqual(forms.make(text)[1], file_of([
            listed(["1", "a", "b", "q"]), symbol(1, 255, 255) + symbol(2, 0, 5),
            region(5, b"\0") + region(6, b"\x7f") + region(32, b"\x0a\xff\xff\xff\xff\1\1\0\0")]))
        self.assertEqual(forms.make(text)[2], call(10000, 0, [1, 2 ** 64 - 1, 16]))

    def test_head(self):
        text = "uint8_t *`a()`(void) at 1 { names z, y; types int, int, uint8_t *, char; #1 x; #0 x; }"
        shown = self.check_text(text)
        self.assertEqual(shown.partition("}")[0],
                         "uint8_t *`a()`() at 0x1\n{\n    names y, z;\n    types int, int, uint8_t *, char;\n    #1 x;\n    int x;\n")
        self.assertEqual(body(forms.make(text)[0], 2), struct.pack("<HQHBHHHH", 0, 1, 2, 0, 1, 1, 1, 0))


# what names a bool, in every order of its words, and a text in normal form with such a type wherever one can stand
BOOLS = [" ".join(words) for word in ("_Bool", "bool") for beside in ((), ("const",), ("volatile",), ("const", "volatile"), ("const", "const"))
         for words in sorted(set(permutations(beside + (word,))))]
BOOL_TEXT = """KIND f(KIND x) at 0x10
{
    KIND y;
    KIND *p;

block_0:
    y = (KIND)x;  // statement 0, node 0
    p = (KIND *)(KIND)y;  // statement 1, node 4
    *(KIND *)p = { KIND at 0 = *(KIND *)p };  // statement 2, node 9
    return y;  // statement 3, node 18
""" + TAIL


class Bools(Case):
    def test_types_stand_without_quotes(self):
        self.assertEqual(len(BOOLS), 2 * (1 + 2 + 2 + 6 + 3))
        for kind in BOOLS:
            with self.subTest(kind):
                text = BOOL_TEXT.replace("KIND", kind)
                self.assertEqual(body(forms.make(text)[0], 1), listed([kind, kind + " *"]))
                self.assertEqual(self.check_text(text), text)


# ---- texts that make no files

GOOD = """int f(int x) at 0x10
{
    short y;

a:
    x = y;
    goto b;

b:
    return x;
}

world
{
    symbol s at 5;
    0x10: 00 01;
}

call(1) steps 5;
"""

LEAD = GOOD.partition("short")[0]

# a place of GOOD, what stands there instead, with ^^ before what is wrong, and what was expected
WRONG = [
    ("int f(", "^^int(", "expected a type and a name"),
    ("int f(", "^^f(", "expected a type and a name, found 'f'"),
    ("int f(", "int ^^int(", "expected a name after the type, found 'int'"),
    ("int f(", "int ^^*(", "expected a name after the type"),
    ("int x) at", "int x ^^at", "expected ',' or ')', found 'at'"),
    (" at 0x10\n{", "\n^^{", "expected at and the routine's address, as in at 0x1000, found '{'"),
    ("0x10\n", "^^0x10000000000000000\n", "expected an address up to 18446744073709551615"),
    ("0x10\n", "^^010\n", "expected an address (none begins with 0, as octal ones do in C: write it decimal or hexadecimal), found '010'"),
    ("short y;\n\na:", "short y\n\n^^a:", "expected ';', found 'a'"),
    ("short y;", "^^y = 1;", "expected a declaration, or a label such as start: before the first statement, found 'y'"),
    ("short y;", "^^sh/**/ort y;", "expected a type of words and stars on one line"),
    ("short y;", "^^`a` y;", "expected a type and a name, found '`'"),
    ("short y;", "^^#3 y;", "expected a type below #1, found #3"),
    ("short y;", "types ^^#1; short y;", "expected a type's text"),
    ("short y;", "int ^^" + "n" * 65 + ";", "expected a name of 1 to 64 letters without blanks"),
    ("short y;", "int ^^``;", "expected a name of 1 to 64 letters without blanks"),
    ("short y;", "int ^^`a b`;", "expected a name of 1 to 64 letters without blanks"),
    ("short y;", "int ^^`\u00e4`;", "expected a name of 1 to 64 letters without blanks"),
    ("short y;", "int ^^`a\nb`;", "expected a name"),
    ("short y;", '^^"%s" y;' % ("t" * 65), "expected a type of at most 64 letters"),
    ("short y;", "^^" + "a" * 65 + " y;", "expected a type of at most 64 letters"),
    ("short y;", "^^\"\t\" y;", "expected a type of at most 64 letters"),
    ("a:\n    x", "    ^^x", "expected a declaration, or a label such as start: before the first statement, found 'x'"),
    ("a:\n", "^^block_1:\n", "expected block_0 here, found block_1"),
    ("a:\n", "^^return:\n", "expected a label that is not there yet, found 'return'"),
    ("b:\n", "^^a:\n", "expected a label that is not there yet, found 'a'"),
    ("    goto b;\n\nb:", "^^b:",
     "expected the block's end: goto, if, switch, return or end (a block does not run on into the next: goto b;), found 'b'"),
    ("goto b;", "goto ^^c;", "expected a label of this routine, found 'c'"),
    ("goto b;", "goto ^^block_4294967296;", "expected a label of this routine"),
    ("goto b;", "goto ^^1;", "expected a label, found '1'"),
    ("goto b;", "5: ^^goto b;", "expected a statement, if or switch (goto and end have no address)"),
    ("goto b;", "goto b; ^^x = 1;", "expected a label (the block before has ended)"),
    ("goto b;\n\nb:", "if (x) goto b;\n^^b:", "expected else (each if has one: else goto a label), found 'b'"),
    ("goto b;", "if ^^x goto b;", "expected '(', found 'x'"),
    ("goto b;", "switch (x) { case 1: ^^x = 1; }", "expected goto (what is done there stands in a block of its own, after a label), found 'x'"),
    ("goto b;", "switch (x) { ^^default: goto b; }",
     "expected case or '}' (there is no default: a value without a case stops the run), found 'default'"),
    ("goto b;", "switch (x) { case ^^9223372036854775808: goto b; }", "expected a number from -9223372036854775808 to 9223372036854775807"),
    ("goto b;", "switch (x) { case ^^y: goto b; }", "expected a number, found 'y'"),
    ("x = y;\n    goto", "x = y\n    ^^goto", "expected an operator or ';', found 'goto'"),
    ("x = y;", "x = ^^;", "expected an operand, found ';'"),
    ("x = y;", "x = y +^^;", "expected an operand, found ';'"),
    ("x = y;", "x = (y^^;", "expected ')', found ';'"),
    ("x = y;", "^^x + 1 = y;", "expected parentheses around the left side of '='"),
    ("x = y;", "^^x ? y : x = y;", "expected parentheses around the left side of '='"),
    ("x = y;", "x ? y^^;", "expected ':', found ';'"),
    ("x = y;", "x = ^^-y;", "expected an operand (for -x write 0 - x"),
    ("x = y;", "x = ^^!y;", "expected an operand (for -x write 0 - x"),
    ("x = y;", "x = ^^\"y\";", "expected an operand (the file has no letters of a text: write string)"),
    ("x = y;", "x = (other)^^y;", "expected an operator (for a cast write a type of C, such as (uint16_t)x; "
     "one of any other name is quoted, (\"other\")x, and is 64 bits wide), found 'y'"),
    ("x = y;", "x = ^^return;", "expected an operand (as a name it is written `return`), found 'return'"),
    ("x = y;", "x = ^^my_t;", "expected an operand (as a name it is written `my_t`)"),
    ("x = y;", "x = ^^5u;", "expected a number (for 5u write (uint32_t)5, for 5L write 5i64), found '5u'"),
    ("x = y;", "x = ^^5i9;", "expected a number such as"),
    ("x = y;", "x = ^^18446744073709551616;", "expected a number from -2147483648 to 18446744073709551615"),
    ("x = y;", "x = ^^-129i8;", "expected a number from -128 to"),
    ("x = y;", "x = f@^^y;", "expected an address, found 'y'"),
    ("x = y;", "x(1,^^);", "expected an operand, found ')'"),
    ("x = y;", "x(1 ^^2);", "expected ',' or ')', found '2'"),
    ("x = y;", "x^^(%s);" % ", ".join("1" * 17), "expected at most 16 arguments, found 17"),
    ("x = y;", "intrinsic x^^;", "expected '(', found ';'"),
    ("x = y;", "folded ^^1;", "expected true or false, found '1'"),
    ("x = y;", "register(^^size=1);", "expected class, index, bits or position, found 'size'"),
    ("x = y;", "register(class=^^256);", "expected a number up to 255, found 256"),
    ("x = y;", "register(index=^^65536);", "expected a number up to 65535, found 65536"),
    ("x = y;", "*x = { int ^^0 = 1 };", "expected at and the field's offset, found '0'"),
    ("x = y;", "*x = { ^^at 0 = 1 };", "expected a type, found 'at'"),
    ("x = y;", "^^node 5;", "expected a node of this routine that is no field, found node 5"),
    ("x = y;", "*x = { int at 0 = 1 };\n^^node 0x4;", "expected a node of this routine that is no field, found node 4"),
    ("x = y;", "x = ^^node 0;", "expected an operand (as a name it is written `node`)"),
    ("x = y;", "*" * 64 + "x^^;", "expected at most 64 nodes from parent to child"),
    ("x = y;", "x" + " + x" * 64 + "^^;", "expected at most 64 nodes from parent to child"),
    ("return x;\n}", "x;\n^^}", "expected the block's end: goto, if, switch, return or end, found '}'"),
    ("world", "^^word", "expected world, call or the end of the text, found 'word'"),
    ("symbol s at 5;", "symbol s^^;", "expected at and the symbol's address, found ';'"),
    ("symbol s at 5;", "symbol s at 5 size ^^256;", "expected a size in bytes up to 255, found 256"),
    ("symbol s at 5;", "symbol s at 5;\n^^symbol s at 6;", "expected a symbol that is not there yet, found s"),
    ("symbol s at 5;", "^^symbols;", "expected symbol, an address or '}', found 'symbols'"),
    ("00 01;", "00 ^^1;",
     "expected a byte of two hexadecimal digits such as 0a, a number with its width such as 10i16, or include \"FILE\", found '1'"),
    ("00 01;", "00 ^^100;", "expected a byte of two hexadecimal digits"),
    ("00 01;", "^^;", "expected a byte of two hexadecimal digits"),
    ("00 01;", "^^256i8;", "expected a number that fits in 8 bits, found 256"),
    ("00 01;", "^^-129i8;", "expected a number that fits in 8 bits, found -129"),
    ("00 01;", "00 01;\n^^0x11: 02;", "expected bytes that no others overlap, found 0x11 again"),
    ("0x10: 00 01;", "^^0x10: 00 01;\n0xf: 02 03;", "expected bytes that no others overlap, found 0x10 again"),
    ("0x10: 00 01;", "^^0xffffffffffffffff: 00 01;", "expected bytes that end by 2^64"),
    ("call(1)", "call^^(%s)" % ", ".join("1" * 17), "expected at most 16 arguments, found 17"),
    ("call(1)", "call(^^x)", "expected a number, found 'x'"),
    ("call(1)", "call(^^18446744073709551616)", "expected a number from"),
    ("steps 5", "steps ^^1000001", "expected a number of steps up to 1000000, found 1000001"),
    ("steps 5", "depth ^^256", "expected a depth up to 255, found 256"),
    ("steps 5", "^^step 5", "expected ';', found 'step'"),
    ("steps 5;", "steps 5; ^^call(1);", "expected world, call or the end of the text, found 'call'"),
    ("call(1) steps 5;", "^^/* call(1);", "expected */ at the end of this comment, found the end of the text"),
    ("int f(int x)", "^^int f(%s)" % ", ".join(17 * ["int x"]), "expected at most 16 parameters, found 17"),
    (LEAD, "^^" + LEAD + "names %s;" % ", ".join("n%d" % k for k in range(511)), "expected at most 512 names, found 514"),
    (LEAD, "^^" + LEAD + "types %s;" % ", ".join("t%d" % k for k in range(512)), "expected at most 512 types, found 514"),
    ("{\n    symbol", "^^{\n    names %s; symbol" % ", ".join("n%d" % k for k in range(512)), "expected at most 512 names in a world"),
]


LOOP = "expected a statement (for a loop write a label, and goto it: if (i < 3) goto again; else goto done;), found "
NO_POINT = "expected a number (there are no numbers with a point), found "
NO_OCTAL = "(none begins with 0, as octal ones do in C: write it decimal or hexadecimal), found "
NO_STRUCT = "expected a routine (types are not declared: a field is told by its own type and its offset where it is used), found "
ITS_BLOCK = "expected goto (what is done there stands in a block of its own, after a label), found "
DECLARED = "expected a statement (declarations stand before the first label), found "

# the same with what C has and the form has not; here the messages are whole
ONLY_C = [
    ("x = y;", "x ^^+= y;", "expected an operator (for x += y write x = x + y), found '+='"),
    ("x = y;", "x^^-=y;", "expected an operator (for x -= y write x = x - y), found '-='"),
    ("x = y;", "x ^^*= 2;", "expected an operator (for x *= y write x = x * y), found '*='"),
    ("x = y;", "x ^^&= -1;", "expected an operator (for x &= y write x = x & y), found '&='"),
    ("x = y;", "x ^^<<= y;", "expected an operator (for x <<= y write x = x << y), found '<<='"),
    ("x = y;", "x = (y ^^>>= 1);", "expected an operator (for x >>= y write x = x >> y), found '>>='"),
    ("x = y;", "x^^++;", "expected an operator (for x++ write x = x + 1, as a statement of its own), found '++'"),
    ("x = y;", "x^^--;", "expected an operator (for x-- write x = x - 1, as a statement of its own), found '--'"),
    ("x = y;", "y = x^^-- > 0;", "expected an operator (for x-- write x = x - 1, as a statement of its own), found '--'"),
    ("x = y;", "^^++x;", "expected an operand (for ++x write x = x + 1, as a statement of its own), found '++'"),
    ("x = y;", "y = ^^--x;", "expected an operand (for --x write x = x - 1, as a statement of its own), found '--'"),
    ("x = y;", "x = y + ^^+1;", "expected an operand (for +x write x), found '+'"),
    ("x = y;", "x = ^^+y;", "expected an operand (for +x write x), found '+'"),
    ("x = y;", "x = ^^- -1;",
     "expected an operand (for -x write 0 - x, for !x write x == 0, for ~x write x ^ -1), found '-'"),
    ("x = y;", "x^^->r = y;", "expected an operator (for s->r write *(uint16_t *)(s + 2), with r's type and its offset in bytes), found '->'"),
    ("x = y;", "y = x^^.r;", "expected an operator (for s.r write *(uint16_t *)(&s + 2), with r's type and its offset in bytes), found '.'"),
    ("x = y;", "y = x^^[2];",
     "expected an operator (for s[2] write *(uint16_t *)(s + 4), with the element's type and its offset in bytes), found '['"),
    ("x = y;", "x = ^^sizeof(int);", "expected an operand (for sizeof write the number of bytes), found 'sizeof'"),
    ("x = y;", "x = ^^sizeof (struct s *);", "expected an operand (for sizeof write the number of bytes), found 'sizeof'"),
    ("x = y;", "x = ^^sizeof y;", "expected an operand (for sizeof write the number of bytes), found 'sizeof'"),
    ("x = y;", "^^for (x = 0; x < 3; x++) y = x;", LOOP + "'for'"),
    ("x = y;", "^^while (x->y) { x = y; }", LOOP + "'while'"),
    ("x = y;", "^^while (x) x = y;", LOOP + "'while'"),
    ("x = y;", "^^do { x = y; } while (x);", LOOP + "'do'"),
    ("goto b;", "goto b; ^^while (x) x = y;", "expected a label (the block before has ended), a tree or '}' "
     "(for a loop write a label, and goto it: if (i < 3) goto again; else goto done;), found 'while'"),
    ("x = y;", "^^{ x = y; }", "expected a statement (statements have no braces around them: a block begins with a label), found '{'"),
    ("x = y;", "^^int z = 1;", DECLARED + "'int'"),
    ("x = y;", "^^rate_t z;", DECLARED + "'rate_t'"),
    ("x = y;", "^^axis *z, w;", DECLARED + "'axis'"),
    ("x = y;", "^^word z;", DECLARED + "'word'"),
    ("x = y;", "return y ^^z;", "expected an operator or ';', found 'z'"),
    ("x = y;", "x = ^^'A';", "expected an operand (for 'A' write its number, 65 or 65i8), found ''A''"),
    ("x = y;", "f@1(^^\"open\");", "expected an operand (the file has no letters of a text: write string), found '\"'"),
    ("x = y;", "x = ^^1.5;", NO_POINT + "'1.5'"),
    ("x = y;", "x = ^^-2.;", NO_POINT + "'-'"),
    ("x = y;", "x = ^^1e5;", NO_POINT + "'1e5'"),
    ("x = y;", "x = ^^.5;", "expected an operand (there are no numbers with a point), found '.5'"),
    ("x = y;", "x = ^^010;", "expected a number " + NO_OCTAL + "'010'"),
    ("x = y;", "^^08: x = y;", "expected a number " + NO_OCTAL + "'08'"),
    ("x = y;", "x = ^^0x10UL;", "expected a number (for 5u write (uint32_t)5, for 5L write 5i64), found '0x10UL'"),
    ("x = y;", "x = y; ^^/* and\n more", "expected */ at the end of this comment, found the end of the text"),
    ("x = y;", "x = y /**/ ^^/*p;", "expected */ at the end of this comment, found the end of the text"),
    ("x = y;", "^^#define N 3", "expected an operand (there is no preprocessor), found '#define'"),
    ("short y;", "^^# include <stdint.h>", "expected a type (there is no preprocessor), found '# include'"),
    ("int f(", "^^#include <stdint.h>\nint f(", "expected a type (there is no preprocessor), found '#include'"),
    ("int f(", "^^typedef int word;\nint f(", NO_STRUCT + "'typedef'"),
    ("int f(", "^^struct axis { int r; };\nint f(", NO_STRUCT + "'struct'"),
    ("int f(", "int limit ^^= 5;\nint f(", "expected '(' (there are no globals: write a symbol of the world), found '='"),
    ("int x)", "int x^^[4])", "expected ',' or ')' (there are no arrays: write a pointer), found '['"),
    ("int x)", "int x ^^= 4)", "expected ',' or ')' (a parameter has no value: its argument stands in call(..)), found '='"),
    ("short y;", "short y^^, z;", "expected ';' (one name to a declaration: int a; int b;), found ','"),
    ("short y;", "short y ^^= 1;", "expected ';' (a declaration has no value: write the assignment after a label), found '='"),
    ("short y;", "short y^^[2];", "expected ';' (there are no arrays: write a symbol of the world), found '['"),
    ("short y;", "short y; ^^while (y) y = 1;", "expected a declaration, or a label such as start: before the first statement "
     "(for a loop write a label, and goto it: if (i < 3) goto again; else goto done;), found 'while'"),
    ("goto b;", "if (x) ^^{ x = y; }", ITS_BLOCK + "'{'"),
    ("goto b;", "if (x) ^^return y; else goto b;", ITS_BLOCK + "'return'"),
    ("goto b;", "if (x) goto b; else ^^if (y) goto a; else goto b;",
     "expected goto (for else if write else goto a label, and the second if after that label), found 'if'"),
    ("goto b;", "switch (x) { case 1: ^^case 2: goto b; }", "expected goto (each case has a goto of its own), found 'case'"),
    ("goto b;", "switch (x) { case 1: goto b; ^^break; }", "expected case or '}' (a case is a goto, and has no break), found 'break'"),
    ("goto b;\n\nb:", "goto ^^start;\n\nstrat:", "expected a label of this routine, found 'start' (is 'strat' meant?)"),
    ("00 01;\n}\n\n", "00 01;\n^^", "expected symbol, an address or '}', found 'call'"),
    ("call(1)", "call(^^1.5)", NO_POINT + "'1.5'"),
    ("steps 5", "steps ^^010", "expected a number of steps " + NO_OCTAL + "'010'"),
]

# texts with a '}' left out, and what is told
OPEN = [
    ("return x;\n}\n\nworld", "return x;\n\n^^world", "expected '}' at the routine's end (the '{' of line 2 is open), found 'world'"),
    ("return x;\n" + GOOD.partition("return x;\n")[2], "return x;\n^^call(1) steps 5;",
     "expected '}' at the routine's end (the '{' of line 2 is open), found 'call'"),
    ("return x;\n" + GOOD.partition("return x;\n")[2], "return x;\n^^",
     "expected an operand, found the end of the text, and the '{' of line 2 has no '}'"),
    ("00 01;\n" + GOOD.partition("00 01;\n")[2], "00 01;^^",
     "expected symbol, an address or '}', found the end of the text, and the '{' of line 14 has no '}'"),
    ("goto b;\n" + GOOD.partition("goto b;\n")[2], "switch (x) {\n case 1: goto b;^^",
     "expected case or '}', found the end of the text, and the '{' of line 7 has no '}'"),
    ("goto b;\n" + GOOD.partition("goto b;\n")[2], "switch (x) { case 1: goto a; } b: *x = {\n int at 0 = {}^^",
     "expected ',' or '}', found the end of the text, and the '{' of line 7 has no '}'"),
    ("call(1) steps 5;\n", "call(1) steps 5^^", "expected ';', found the end of the text"),
]


def marked(text):
    """A text without its ^^, and the place of that: the line and the column, counted from 1."""
    before, _, after = text.partition("^^")
    return before + after, "%d:%d" % (len(before.split("\n")), len(before.split("\n")[-1]) + 1)


class Errors(Case):
    def test_the_good_text_is_good(self):
        self.check_text(GOOD)
        self.check_text(GOOD.replace("x = y;", "*x = { int at 0 = 1 }; node 3; node 5;"))
        self.check_text(GOOD.replace("x = y;", "*" * 63 + "x;"))
        self.check_text(GOOD.replace("x = y;", "x" + " + x" * 63 + ";"))

    def test_each_error_tells_its_place_and_what_was_expected(self):
        for old, new, message in WRONG:
            with self.subTest(new[:60]):
                self.assertIn(old, GOOD)
                text, place = marked(GOOD.replace(old, new, 1))
                with self.assertRaises(forms.Wrong) as caught:
                    forms.make(text)
                self.assertEqual(str(caught.exception).partition(message)[:2], (place + ": ", message))

    def test_what_to_write_instead(self):
        for old, new, message in ONLY_C + OPEN:
            with self.subTest(new[-60:]):
                self.assertIn(old, GOOD)
                text, place = marked(GOOD.replace(old, new, 1))
                with self.assertRaises(forms.Wrong) as caught:
                    forms.make(text)
                self.assertEqual(str(caught.exception), place + ": " + message)

    def test_deep_nesting(self):
        with self.assertRaises(forms.Wrong) as caught:
            forms.make(GOOD.replace("x = y;", "(" * 3000 + "x" + ")" * 3000 + ";"))
        self.assertRegex(str(caught.exception), "^6:[0-9]+: expected less nesting: at most 64 nodes from parent to child$")

    def test_spoilt_texts(self):
        """A text with words left out, told twice or changed for others makes accepted files, or says its line."""
        chance, made = random.Random(1), 0
        texts = [re.findall(r"\w+|\s+|.", form.read_text()) for form in sorted(ROOT.glob("examples/*/form.txt"))]
        for _ in range(SPOILT):
            words = list(chance.choice(texts))
            at = chance.randrange(len(words))
            words[at:at + chance.choice([0, 1, 1, 2])] = [chance.choice(words)] * chance.choice([0, 1, 1, 2])
            try:
                self.check_text("".join(words))
                made += 1
            except forms.Wrong as wrong:
                self.assertRegex(str(wrong), r"^[0-9]+:[0-9]+: expected .*")
        self.assertTrue(SPOILT // 10 < made < SPOILT * 9 // 10, made)

    def test_files_that_would_be_too_long(self):
        for old, new in (("x = y;", "x = y;" * 1300), ("x = y;", "x; node 0;" + "node 0;" * 70000), ("00 01;", "00 " * 65536 + ";"),
                         ("goto b;", "switch (x) { %s }" % ("case 1: goto b;" * 6000))):
            with self.assertRaises(forms.Refused) as caught:
                forms.make(GOOD.replace(old, new, 1))
            self.assertIn("and a file has at most 65535", str(caught.exception))


# ---- texts that are taken as before, though they look like what only C has

ALIKE = [("x--1;", "x - 0xffffffff;"), ("x- -1;", "x - 0xffffffff;"), ("x&&-1;", "x && 0xffffffff;"), ("x*-1i8;", "x * 255i8;"), ("x= =y;", None),
         ("x<=-1;", "x <= 0xffffffff;"), ("for;", "for;"), ("while(x);", "while(x);"), ("do + break + continue;", "do + break + continue;"),
         ("sizeof(x);", "sizeof(x);"), ("include = world;", "include = world;"), ("call(1);", "call(1);"), ("steps * depth;", "steps * depth;"),
         ("*x={};", "*x = {};"), ("{};", "{};"), ("x/ *y;", "x / *y;"), ("x /**/ / /* */ *y;", "x / *y;"), ("0xe5;", "229;"), ("0x1e;", "30;"),
         ("static;", "static;"), ("`int`;", "`int`;")]


class Alike(Case):
    def test_what_looks_like_only_c(self):
        for text, wanted in ALIKE:
            with self.subTest(text):
                whole = HEAD + "a: " + text + " end; }"
                if wanted is None:
                    self.assertRaises(forms.Wrong, forms.make, whole)
                else:
                    self.assertEqual(self.check_text(whole), one_block("    %s  // statement 0, node 0\n    end;\n" % wanted))

    def test_names_of_the_form(self):
        for kind in ("typedef", "struct", "enum", "world", "static"):
            self.check_text("%s f() at 1 { a: end; }" % kind)
        text = "int world(int call, int for) at 1 { int include; while y; a: world: call = for; end; } world { symbol do at 1; }"
        self.assertIn("int include;\n    while y;\n\nblock_0:", self.check_text(text.replace("a: world", "world")))


# ---- texts that make files, and are likely to have a slip

UNTOLD = " is no parameter, local or symbol: "
UNKNOWN = UNTOLD + "it is unknown until it is assigned"
NO_CAST = UNTOLD + ("it is no cast, and unknown until it is assigned "
                    "(for a cast write a type of C, such as (uint16_t)x; one of any other name is quoted, ")
BY_ADDRESS = UNTOLD + "a function is called by its address, as in "
SIGNED = "the width of '%s' is not known: it is taken as 64 bits signed"
UNSIGNED = "the width of '%s' is not known: it is taken as 64 bits unsigned"
OF_16_BITS = " (for 16 bits write uint16_t or int16_t)"
NO_POINTS = " (there are no numbers with a point)"

# a place of GOOD, what stands there instead, with ^^ before what is warned of, and the warning
SLIPS = [
    ("x = y;", "x = ^^speed;", "'speed'" + UNKNOWN),
    ("x = y;", "^^speed = x; x = speed + speed;", "'speed'" + UNKNOWN),
    ("x = y;", "*(int *)(^^p + 2) = y;", "'p'" + UNKNOWN),
    ("x = y;", "x = y;\n\n  /* here */  ^^f;", "'f'" + UNKNOWN),
    ("goto b;", "if (^^door) goto b; else goto a;", "'door'" + UNKNOWN),
    ("goto b;", "switch (^^state) { case 1: goto b; }", "'state'" + UNKNOWN),
    ("x = y;", "tree ^^q; x = y;", "'q'" + UNKNOWN),
    ("x = y;", "x = ^^`a.b`;", "'a.b'" + UNKNOWN),
    ("short y;", "names speed; short y; tree ^^speed;", "'speed'" + UNKNOWN),
    ("short y;", "short y; int closed; tree ^^colsed;", "'colsed'" + UNKNOWN + " (is 'closed' meant?)"),
    ("x = y;", "x = &^^p;", "'p'" + UNTOLD + "its address is unknown"),
    ("x = y;", "f@1(&x, &(^^p));", "'p'" + UNTOLD + "its address is unknown"),
    ("x = y;", "^^read_switch(x, &y);", "'read_switch'" + BY_ADDRESS + "read_switch@0x7000(..)"),
    ("x = y;", "x = 1 + ^^read_switch();", "'read_switch'" + BY_ADDRESS + "read_switch@0x7000(..)"),
    ("x = y;", "^^__builtin_unreachable();", "'__builtin_unreachable'" + UNTOLD + "an intrinsic is written intrinsic __builtin_unreachable(..)"),
    ("x = y;", "x = ^^sizeof(y);", "'sizeof'" + UNTOLD + "for sizeof write the number of bytes"),
    ("x = y;", "x = ^^NULL;", "'NULL'" + UNTOLD + "for NULL write 0i64"),
    ("x = y;", "^^break;", "'break'" + UNTOLD + "for break write goto and a label"),
    ("x = y;", "^^continue;", "'continue'" + UNTOLD + "for continue write goto and a label"),
    ("x = y;", "^^while (x);", "'while'" + UNTOLD + "for a loop write a label, and goto it: if (i < 3) goto again; else goto done;"),
    ("x = y;", "x = (^^word)*y;", "'word'" + NO_CAST + "(\"word\")x, and is 64 bits wide)"),
    ("x = y;", "x = (^^word)-1;", "'word'" + NO_CAST + "(\"word\")x, and is 64 bits wide)"),
    ("x = y;", "x = (^^word)(y);", "'word'" + NO_CAST + "(\"word\")x, and is 64 bits wide)"),
    ("x = y;", "x = (^^word);", "'word'" + UNKNOWN),
    ("short y;", "^^uint16 y;", SIGNED % "uint16" + OF_16_BITS),
    ("short y;", "^^unit16_t y;", SIGNED % "unit16_t" + OF_16_BITS),
    ("short y;", "^^const word y;", SIGNED % "word"),
    ("short y;", "^^rate_t y; rate_t z;", SIGNED % "rate_t"),
    ("short y;", "^^axis `y`;", SIGNED % "axis"),
    ("short y;", "types uint16; ^^uint16 y;", SIGNED % "uint16" + OF_16_BITS),
    ("short y;", "^^unsigned word y;", UNSIGNED % "word"),
    ("short y;", "^^int short y;", SIGNED % "int short" + " (for 16 bits write short)"),
    ("short y;", "^^float y;", SIGNED % "float" + NO_POINTS),
    ("short y;", "^^long double y;", SIGNED % "long double" + NO_POINTS),
    ("short y;", "^^enum mode y;", SIGNED % "enum mode"),
    ("short y;", "^^static short y;", SIGNED % "static short" + " (leave out static)"),
    ("short y;", "^^uint y;", SIGNED % "uint" + " (is 'unsigned int' meant?)"),
    ("short y;", "^^uint24_t y;", SIGNED % "uint24_t"),
    ("short y;", "^^shrot y;", SIGNED % "shrot" + " (is 'short' meant?)"),
    ("int f(", "^^word f(", SIGNED % "word"),
    ("int x)", "^^word x)", SIGNED % "word"),
    ("x = y;", "x = (^^float)y;", SIGNED % "float" + NO_POINTS),
    ("x = y;", "x = *(^^uint16 *)y;", SIGNED % "uint16" + OF_16_BITS),
    ("x = y;", "x = (uint16 *)y; *(^^uint16 *)y = x; x = *(uint16 *)y;", SIGNED % "uint16" + OF_16_BITS),
    ("x = y;", "*(^^unsigned word*)y = x;", UNSIGNED % "word"),
    ("x = y;", "*(struct s *)y = { ^^word at 0 = x, int at 8 = x };", SIGNED % "word"),
    ("call(1)", "^^call()", "0 arguments for 1 parameter: 'x' is unknown"),
    ("call(1)", "call(1, ^^2)", "2 arguments for 1 parameter: from here on they are not used"),
    ("call(1)", "call(1,\n\t^^2, 3)", "3 arguments for 1 parameter: from here on they are not used"),
]

# what is not warned of
NO_SLIPS = [
    ("x = y;", "x = s; s = x; x = &s; s(1); f@1(&y, &s);"), ("x = y;", "f@0x7000(x); intrinsic __builtin_unreachable(); string;"),
    ("x = y;", "x(y); (*y)(x);"), ("x = y;", "x = (y)*x; x = (y)-1;"), ("short y;", "names speed, `a.b`; types uint16, word; short y;"),
    ("short y;", "word *y; const word *z; word *const w;"), ("short y;", "struct axis y; union u z; const struct axis w;"),
    ("short y;", "\"word\" y; \"uint16\" z;"), ("x = y;", "*y = { \"word\" at 0 = x, #0 at 8 = x };"), ("short y;", "types int, word; #1 y;"), ("int f(", "void f("), ("x = y;", "(void)f@1();"),
    ("x = y;", "x = (word *)y; x = **(word **)y;"), ("x = y;", "*(word *)y = { int at 0 = x }; *y = { int at 0 = x };"),
    ("x = y;", "x = (\"word\")y; x = *(\"word *\")y; x = *(struct axis *)y;"), ("call(1)", "call(-1)"),
    # every type whose width document 01 tells, and what C has 64 bits of too
    ("short y;", "short y; " + " ".join("%s v%d;" % (kind, k) for k, kind in enumerate(
        "_Bool,bool,char,signed char,unsigned char,short,short int,unsigned short,int,unsigned,signed,long,long int,long long,unsigned long long int,"
        "int long,long unsigned int,int8_t,int16_t,int32_t,int64_t,uint8_t,uint16_t,uint32_t,uint64_t,size_t,ssize_t,intptr_t,uintptr_t,"
        "const volatile bool,char *,char *const,int **".split(",")))),
]


class Slips(Case):
    def warnings(self, text):
        """The warnings of a text, which makes accepted files."""
        files, found = forms.make_and_warn(text)
        self.assertEqual(reference.refusal(*files), reference.ACCEPTED)
        self.assertEqual(forms.make(text), files)
        return found

    def test_each_slip_is_told_once_at_its_first_place(self):
        for old, new, message in SLIPS:
            with self.subTest(new):
                self.assertIn(old, GOOD)
                text, place = marked(GOOD.replace(old, new, 1))
                self.assertEqual(self.warnings(text), ["%s: warning: %s" % (place, message)])

    def test_what_is_no_slip(self):
        for old, new in NO_SLIPS:
            with self.subTest(new):
                self.assertIn(old, GOOD)
                self.assertEqual(self.warnings(GOOD.replace(old, new, 1)), [])

    def test_slips_are_told_in_their_order(self):
        text = GOOD.replace("short", "word").replace("int x", "int x, int z").replace("x = y;", "r = q + s;")
        self.assertEqual([told.partition(" ")[0] for told in self.warnings(text)], ["3:5:", "6:5:", "6:9:", "19:1:"])
        self.assertEqual(self.warnings(text)[3], "19:1: warning: 1 argument for 2 parameters: 'z' is unknown")

    def test_without_a_world_or_a_call_there_is_none_in_it(self):
        routine = GOOD.partition("world")[0].replace("x = y", "x = s").replace("int x", "int x, char *p")
        untold, missing = "6:9: warning: 's'" + UNKNOWN, "1:7: warning: there is no call(..): 'x', 'p' are unknown"
        self.assertEqual(self.warnings(routine), [missing, untold])
        self.assertEqual(self.warnings(routine + "call(1, 2);"), [untold])
        self.assertEqual(self.warnings(routine + "world { symbol s at 5; }"), [missing])
        self.assertEqual(self.warnings(GOOD.partition("world")[0].replace("int x", "void").replace("x = y", "y").replace("return x", "return y")), [])

    def test_the_examples_have_no_slips(self):
        texts = [form.read_text() for form in ROOT.glob("examples/*/form.txt")]
        self.assertGreaterEqual(len(texts), 5)
        for text in texts + [DOCUMENT.split("```\n")[1]]:
            self.assertEqual(self.warnings(text), [])

    def test_the_documents_warning(self):
        text, told = (ROOT / "examples/homing/form.txt").read_text(), re.findall("^    homing.txt:(.*)$", DOCUMENT, re.MULTILINE)
        self.assertEqual(self.warnings(text.replace("= position +", "= posiiton +")), told)


# ---- files that a world includes

INCLUDED = "int f() at 1 { a: return 1; } world { 0x10: "


class Included(Case):
    def setUp(self):
        folder = tempfile.TemporaryDirectory()
        self.addCleanup(folder.cleanup)
        self.folder = Path(folder.name)
        (self.folder / "parts").mkdir()
        for name, data in (("lens.bin", b"\x00;\xff\n"), ("parts/a \"b\".bin", b"AB"), ("none.bin", b""), ("full.bin", bytes(65535)),
                           ("more.bin", bytes(65536)), ("most.bin", bytes(65535 - 26))):
            (self.folder / name).write_bytes(data)

    def made(self, regions):
        """The bodies of the world that a text with these regions makes."""
        return reference.bodies(forms.make(INCLUDED + regions + " }", self.folder)[1], 3)

    def test_bytes_of_files(self):
        self.assertEqual(self.made('include "lens.bin";')[2], region(16, b"\x00;\xff\n"))
        self.assertEqual(self.made('01 include "parts/a \\"b\\".bin" -1i16 include "lens.bin"; 2: 07;')[2],
                         region(2, b"\x07") + region(16, b"\x01AB\xff\xff\x00;\xff\n"))
        self.assertEqual(self.made('include "%s";' % (self.folder / "lens.bin"))[2], region(16, b"\x00;\xff\n"))
        self.assertEqual(self.made('include "most.bin";')[2], region(16, bytes(65535 - 26)))

    def test_no_text_shows_a_file(self):
        files = forms.make(INCLUDED + 'include "lens.bin"; }', self.folder)
        self.assertIn("    0x10: 00 3b ff 0a;\n", forms.show(files))

    def test_files_that_cannot_be_included(self):
        for written, told in (('^^"gone.bin"', "expected a file that can be read, found gone.bin: No such file or directory"),
                              ('^^"parts"', "expected a file that can be read, found parts: Is a directory"),
                              ('^^"none.bin"', "expected a file of 1 to 65535 bytes, found none.bin with none"),
                              ('^^"more.bin"', "expected a file of 1 to 65535 bytes, found more.bin with more"),
                              ("^^lens.bin", "expected a file's name in quotes, as in include \"lens.bin\", found 'lens'")):
            with self.subTest(written):
                text, place = marked(INCLUDED + "00\n include %s; }" % written)
                with self.assertRaises(forms.Wrong) as caught:
                    forms.make(text, self.folder)
                self.assertEqual(str(caught.exception), "%s: %s" % (place, told))

    def test_bytes_that_overlap_or_are_too_many(self):
        with self.assertRaisesRegex(forms.Wrong, "^1:%d: expected bytes that no others overlap, found 0x13 again$" % (len(INCLUDED) + 21)):
            self.made('include "lens.bin"; 0x13: 01;')
        with self.assertRaisesRegex(forms.Refused, "^world.bin would have 65561 bytes"):
            self.made('include "full.bin";')


# ---- files

NUMBERS = (0, 1, 2, 9, 10, 255, 99999, 100000, 2 ** 31, 2 ** 63, 2 ** 64 - 1)
ODD_NAMES = ["x", "y", "rate", "at", "return", "node", "block_0", "int", "my_t", "`", "\\", "`\\`", '"', "//x", "/*", "a.b", "0", "12i8", "#1", "x,", "~",
             "names", "world", "call", "symbol", "size", "n" * 64, "__builtin_unreachable", "__analysis_halted", "@", "(int)", "{}", "x;y"]
ODD_TYPES = ["void", "int", "uint8_t", "char *", "char*", "char *const", "struct axis *", "axis", "axis *", "", " ", "int ", " int", "a  b", "a b",
             "*", "* a", "int**", "int * *", "at", "int at", "return", "struct { int a; } *", '"', "\\", '"\\"', "`", "//", "/* x */", "int//", "a*b",
             "#3", "0", "int(", "int)", "t" * 64, "unsigned", "my_t", "names", "types", "tree", "x:", "x;"]


class Maker:
    """Makes accepted files by a seed."""

    def __init__(self, seed):
        self.random = random.Random(seed)
        self.names = sorted(self.random.sample(ODD_NAMES, self.random.randint(1, 12)))
        self.types = [self.random.choice(ODD_TYPES) for _ in range(self.random.randint(1, 12))]

    def number(self, bits):
        return self.random.choice([self.random.getrandbits(bits), self.random.choice(NUMBERS) % 2 ** bits])

    def name(self):
        return self.random.randrange(len(self.names))

    def type(self):
        return self.random.randrange(len(self.types))

    def node(self, depth):
        """A tree of at most `depth` nodes from parent to child."""
        leaves = (R.CONSTANT, R.VAR, R.VAR, R.REGISTER, R.STRING, R.FUNCTION, R.TRUE, R.FALSE, R.DECIDED, R.PLAIN, R.RETURN, R.STRUCT, R.INTRINSIC)
        kind = self.random.choice(leaves if depth < 2 else range(20))
        if kind == R.FIELD:
            kind = R.STRUCT
        least, most = reference.children(kind)
        count = 0 if depth < 2 else self.random.randint(least, min(most, 4))
        if kind == R.STRUCT:
            count = count if depth > 2 else 0
            kids = [tree(R.FIELD, self.node(depth - 2), ref=self.type(), value=self.number(64)) for _ in range(count)]
        else:
            kids = [self.node(depth - 1) for _ in range(count)]
        return tree(kind, *kids, **self.fields(kind))

    def fields(self, kind):
        if kind == R.CONSTANT:
            return dict(width=self.random.randint(1, 8), value=self.number(64))
        if kind == R.REGISTER:
            return dict(flag=self.number(8), ref=self.number(16), width=self.number(32), value=self.number(64))
        if kind in (R.VAR, R.INTRINSIC):
            return dict(ref=self.name())
        if kind == R.FUNCTION:
            return dict(ref=self.name(), value=self.number(64))
        if kind == R.CAST:
            return dict(ref=self.type())
        return dict(flag=self.random.randrange({R.DECIDED: 2, R.BINARY: 18}.get(kind, 1)))

    def forest(self):
        """The nodes, and every number that can be a root: the trees' tops, then the others."""
        trees = [self.node(self.random.choice([1, 2, 3, 4, 5])) for _ in range(self.random.randint(0, 10))]
        if self.random.random() < 0.1:
            trees.append(self.chain(64))
        nodes, tops, at = b"".join(trees), [], 0
        for one in trees:
            tops.append(at)
            at += len(one) // 20
        return nodes, tops, [k for k in range(at) if nodes[20 * k] != R.FIELD]

    def chain(self, length):
        one = tree(R.VAR, ref=self.name())
        for _ in range(length - 1):
            kind = self.random.choice([R.CAST, R.DEREF, R.ADDRESS, R.RETURN, R.BINARY, R.ASSIGN, R.TERNARY, R.CALL])
            beside = [tree(R.VAR, ref=self.name()) for _ in range(reference.children(kind)[0] - 1)]
            kids = beside + [one] if self.random.random() < 0.5 else [one] + beside
            one = tree(kind, *kids, **self.fields(kind))
        return one

    def address(self):
        return (1, self.number(64)) if self.random.random() < 0.5 else (0, 0)

    def roots(self, tops, all_roots):
        """The roots of statements and terminators: mostly the tops in order, some left out, some told again, some inside, some moved."""
        found = []
        for top in tops:
            found += [top] * self.random.choice([0, 1, 1, 1, 1, 1, 2])
            if self.random.random() < 0.2:
                found.append(self.random.choice(all_roots))
        if self.random.random() < 0.3:
            self.random.shuffle(found)
        return found

    def blocks(self, roots):
        """Statements and blocks that take the roots in order."""
        statements, blocks, count = b"", b"", 0
        for root in roots:
            if self.random.random() < 0.7:
                statements, count = statements + statement(root, *self.address()), count + 1
            elif self.random.random() < 0.5:
                blocks, count = blocks + block(count, 2, *self.address(), root, self.number(32), self.number(32)), 0
            else:
                cases = [(self.number(64), self.number(32)) for _ in range(self.random.randint(0, 4))]
                blocks, count = blocks + block(count, 3, *self.address(), root, len(cases), 0, cases), 0
            if self.random.random() < 0.2:
                blocks, count = blocks + self.random.choice([block(count), block(count, 1, taken=self.number(32))]), 0
        return statements, blocks + (block(count) if count else b"")

    def routine(self):
        variables = [(self.name(), self.type()) for _ in range(self.random.randint(0, 6))]
        params = self.random.randint(0, len(variables))
        nodes, tops, all_roots = self.forest()
        statements, blocks = self.blocks(self.roots(tops, all_roots))
        top = head(self.name(), self.number(64), self.type(), params, variables)
        return file_of([listed(self.names), listed(self.types), top, nodes, statements, blocks])

    def world(self):
        names = sorted(self.random.sample(ODD_NAMES, self.random.randint(0, 6)))
        symbols = b"".join(symbol(k, self.number(8), self.number(64)) for k in range(len(names)) if self.random.random() < 0.7)
        regions, at = b"", self.random.choice([0, 5, 2 ** 32, 2 ** 64 - 300])
        for _ in range(self.random.randint(0, 4)):
            at += self.random.choice([0, 0, 1, 20])
            data = self.random.randbytes(self.random.choice([1, 2, 15, 16, 17, 50]))
            regions, at = regions + region(at, data), at + len(data)
        return file_of([listed(names), symbols, regions])

    def files(self):
        arguments = [self.number(64) for _ in range(self.random.choice([0, 1, 2, 16]))]
        return self.routine(), self.world(), call(self.number(32) % 1000001, self.number(8), arguments)

    def damaged(self, files):
        """The files with one byte of one of them changed."""
        files = [bytearray(f) for f in files]
        chosen = self.random.choice([files[0]] * 3 + files)
        chosen[self.random.randrange(len(chosen))] = self.random.choice([0, 1, 2, 18, 20, 255, self.random.getrandbits(8)])
        return [bytes(f) for f in files]


# bytes put into TRIM's nodes (node, place, byte; the places are kind 0, flag 1, ref 2, width 4, span 8, value 12), and what is told
FAULTS = [
    ([(0, 0, 20)], 5, 0, "there is no kind 20"),
    ([(8, 0, 255)], 5, 8, "there is no kind 255"),
    ([(4, 4, 9)], 30, 4, "there is no Constant of width 9"),
    ([(8, 4, 0)], 30, 8, "there is no Constant of width 0"),
    ([(2, 1, 18)], 30, 2, "kind 12 has no flag 18"),
    ([(3, 2, 3)], 30, 3, "there is no name 3"),
    ([(1, 0, 8), (1, 2, 3)], 30, 1, "there is no type 3"),
    ([(1, 1, 1)], 31, 1, "kind 1 has no flag, and 1 stands there"),
    ([(0, 3, 1)], 31, 0, "kind 13 has no ref, and 256 stands there"),
    ([(6, 5, 1)], 31, 6, "kind 12 has no width, and 256 stands there"),
    ([(5, 12, 7)], 31, 5, "kind 16 has no value, and 7 stands there"),
    ([(3, 0, 20), (3, 2, 3), (3, 1, 1)], 5, 3, "there is no kind 20"),
    ([(3, 2, 3), (3, 1, 1)], 30, 3, "there is no name 3"),
    ([(4, 4, 9), (7, 0, 20)], 30, 4, "there is no Constant of width 9"),
    ([(1, 1, 1), (4, 4, 9)], 31, 1, "kind 1 has no flag, and 1 stands there"),
    ([(1, 1, 1), (4, 0, 20)], 31, 1, "kind 1 has no flag, and 1 stands there"),
    ([(2, 0, 20), (4, 4, 9)], 5, 2, "there is no kind 20"),
    ([(0, 8, 9), (8, 4, 9)], 30, 8, "there is no Constant of width 9"),
    ([(3, 4, 1), (8, 8, 0)], 31, 3, "kind 1 has no width, and 1 stands there"),
]


def faulty_trim(faults, cut=0):
    """TRIM with these bytes, and so many bytes less at the end of its nodes."""
    files = forms.make(TRIM)
    parts = reference.bodies(files[0], 6)
    nodes = bytearray(parts[3])
    for node, at, byte in faults:
        nodes[20 * node + at] = byte
    parts[3] = bytes(nodes[:len(nodes) - cut])
    return (file_of(parts),) + files[1:]


class Nodes(Case):
    def check_told(self, files, told):
        self.assertFalse(self.check_files(files))
        with self.assertRaises(forms.Refused) as caught:
            forms.show(files)
        self.assertEqual(str(caught.exception), "routine.bin is no accepted file: " + told)

    def test_number_and_node_are_told(self):
        for faults, number, node, why in FAULTS:
            with self.subTest(faults):
                told = "refused %d at node %d: %s" % (number, node, why)
                self.check_told(faulty_trim(faults), told)
                if node < 8:
                    self.check_told(faulty_trim(faults, 1), told)
                    self.check_told(faulty_trim(faults, 19), told)

    def test_a_node_cut_off_is_none(self):
        for faults in ([], [(8, 0, 20)], [(8, 4, 9)], [(8, 1, 1)]):
            for cut in (1, 19):
                self.assertEqual(reference.refusal(*faulty_trim(faults, cut)), (6, 0))
                self.assertFalse(self.check_files(faulty_trim(faults, cut)))


class Files(Case):
    def test_the_references_cases(self):
        shown = [self.check_files(files) for _, _, node, files in reference.all_cases() if node is None]
        self.assertGreater(sum(shown), 100)
        self.assertGreater(len(shown) - sum(shown), 100)

    def test_made_files(self):
        for seed in range(ROUTINES):
            with self.subTest(seed=seed):
                files = Maker(seed).files()
                self.assertEqual(reference.refusal(*files), reference.ACCEPTED)
                self.assertTrue(self.check_files(files))

    def test_damaged_nodes(self):
        """Two bytes of nodes changed: every number of them is met."""
        found = Counter()
        for seed in range(ROUTINES * DAMAGES):
            maker = Maker(seed // DAMAGES)
            files = maker.files()
            maker.random.seed(seed)
            parts = reference.bodies(files[0], 6)
            nodes = bytearray(parts[3])
            for _ in range(2 if nodes else 0):
                nodes[maker.random.randrange(len(nodes))] = maker.random.choice([0, 1, 2, 9, 18, 20, maker.random.getrandbits(8)])
            parts[3] = bytes(nodes)
            with self.subTest(seed=seed):
                files = (file_of(parts),) + files[1:]
                self.check_files(files)
                found[reference.refusal(*files)[0]] += 1
        self.assertGreater(min(found[number] for number in (0, 5, 6, 30, 31)), 10)

    def test_damaged_files(self):
        shown = []
        for seed in range(ROUTINES * DAMAGES):
            with self.subTest(seed=seed):
                maker = Maker(seed // DAMAGES)
                files = maker.files()
                maker.random.seed(seed)
                shown.append(self.check_files(maker.damaged(files)))
        self.assertGreater(sum(shown), 100)
        self.assertGreater(len(shown) - sum(shown), 100)

    def test_a_chain_as_long_as_a_file(self):
        nodes = b"".join(tree(R.DEREF, span=span) for span in range(3200, 1, -1)) + X
        self.assertFalse(self.check_files((routine_of(nodes, b"", b""), EMPTY, USUAL)))

    @unittest.skipUnless(LISTINGS.exists(), "oracle/target/release/listings is not built")
    def test_files_of_the_originals_harness(self):
        shown = []
        with tempfile.TemporaryDirectory() as folder:
            subprocess.run([LISTINGS, folder, str(ORIGINALS)], check=True, capture_output=True)
            for case in sorted(Path(folder).iterdir()):
                with self.subTest(case.name):
                    parts = [case / name for name in forms.FILES]
                    shown.append(self.check_files(part.read_bytes() if part.exists() else b"" for part in parts))
        self.assertGreater(sum(shown), ORIGINALS // 3)
        self.assertGreater(len(shown) - sum(shown), ORIGINALS // 4)


class Command(Case):
    def run_tool(self, *words):
        done = subprocess.run([sys.executable, ROOT / "tools/forms.py", *words], capture_output=True, text=True)
        return done.returncode, done.stdout, done.stderr

    def test_make_and_show(self):
        with tempfile.TemporaryDirectory() as folder:
            text, made = Path(folder) / "text", Path(folder) / "new" / "made"
            text.write_text(TRIM)
            self.assertEqual(self.run_tool("make", text, made), (0, "", ""))
            self.assertEqual(tuple((made / name).read_bytes() for name in ("routine.bin", "world.bin", "call.bin")), forms.make(TRIM))
            self.assertEqual(self.run_tool("show", made), (0, TRIM, ""))

    def test_slips(self):
        with tempfile.TemporaryDirectory() as folder:
            text, made = Path(folder) / "text", Path(folder) / "made"
            text.write_text(TRIM.replace("sum -", "smu -").replace("call(100)", "call()"))
            told = ("%s:7:12: warning: 'smu' is no parameter, local or symbol: it is unknown until it is assigned (is 'sum' meant?)\n"
                    "%s:14:1: warning: 0 arguments for 1 parameter: 'dwell' is unknown\n" % (text, text))
            refused = (1, "", told + "no files are made: --strict, and 2 warnings\n")
            self.assertEqual(self.run_tool("make", "--strict", text, made), refused)
            self.assertEqual(self.run_tool("make", text, made, "--strict"), refused)
            self.assertFalse(made.exists())
            self.assertEqual(self.run_tool("make", text, made), (0, "", told))
            self.assertEqual(tuple((made / name).read_bytes() for name in forms.FILES), forms.make(text.read_text()))
            text.write_text(TRIM)
            self.assertEqual(self.run_tool("make", "--strict", text, made), (0, "", ""))
            self.assertEqual(tuple((made / name).read_bytes() for name in forms.FILES), forms.make(TRIM))

    def test_a_file_is_included_from_the_texts_folder(self):
        with tempfile.TemporaryDirectory() as folder:
            text, made = Path(folder) / "text", Path(folder) / "made"
            (Path(folder) / "lens.bin").write_bytes(b"\x2a")
            text.write_text(TRIM.replace("world\n{", 'world\n{ 1: include "lens.bin";'))
            self.assertEqual(self.run_tool("make", text, made), (0, "", ""))
            self.assertEqual((made / "world.bin").read_bytes(), file_of([b"", b"", region(1, b"\x2a")]))

    def test_errors(self):
        with tempfile.TemporaryDirectory() as folder:
            text = Path(folder) / "text"
            text.write_bytes(b"\xef\xbb\xbf" + TRIM.replace("sum -", "sum").replace("\n", "\r\n").encode())
            self.assertEqual(self.run_tool("make", text, folder), (1, "", "%s:7:16: expected an operator or ';', found '50i8'\n" % text))
            self.assertEqual([path.name for path in Path(folder).iterdir()], ["text"])
            self.assertIn("routine.bin", self.run_tool("show", folder)[2])
            for name in forms.FILES:
                (Path(folder) / name).write_bytes(b"")
            self.assertEqual(self.run_tool("show", folder), (1, "", "routine.bin is no accepted file: refused 1: it is too short\n"))
            (Path(folder) / "routine.bin").write_bytes(faulty_trim([(4, 4, 9)])[0])
            told = "routine.bin is no accepted file: refused 30 at node 4: there is no Constant of width 9\n"
            self.assertEqual(self.run_tool("show", folder), (1, "", told))
            for words in ((), ("make",), ("make", text), ("show",), ("show", folder, folder), ("list", folder),
                          ("make", "--strict"), ("make", "--strict", text), ("show", "--strict", folder), ("--strict", "make", text, folder)):
                code, out, told = self.run_tool(*words)
                self.assertEqual((code, out), (1, ""))
                self.assertIn("forms.py make TEXT FOLDER", told)
                self.assertIn("forms.py make --strict TEXT FOLDER", told)


if __name__ == "__main__":
    unittest.main()
