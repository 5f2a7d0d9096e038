#!/usr/bin/env python3
"""Makes routine.bin, world.bin and call.bin from one text, and shows them as that text. docs/FORMS.md describes the text.

    tools/forms.py make TEXT FOLDER             write the three files into FOLDER; what is likely to be a slip is told on standard error
    tools/forms.py make --strict TEXT FOLDER    the same, but write nothing where there is such a slip
    tools/forms.py show FOLDER                  print the text of the three files in FOLDER

Only accepted files are made, and only accepted files are shown: the text that is shown gives the same bytes again. For others `show` says the
number by which a run refuses them, and the faulty node's where the number tells one.
"""
import difflib
import re
import struct
import sys
from collections import Counter
from pathlib import Path

FILES = ("routine.bin", "world.bin", "call.bin")
MOST_BYTES = 65535
MOST_WORDS = 512
MOST_LETTERS = 64
MOST_CHAIN = 64
MOST_ARGUMENTS = 16
MOST_STEPS = 1000000
MOST_DEPTH = 255
STEPS, DEPTH = 10000, 8
# enough for any tree that a file can hold, however it is written
sys.setrecursionlimit(5000)

LEAVE, GOTO, BRANCH, SWITCH = range(4)
LAST8, LAST16, LAST32, LAST64 = (2 ** bits - 1 for bits in (8, 16, 32, 64))

CONSTANT, VAR, REGISTER, STRING, FUNCTION, TRUE, FALSE, FOLDED, CAST, DEREF = range(10)
ADDRESS, TERNARY, BINARY, ASSIGN, CALL, INTRINSIC, RETURN, STRUCT, FIELD, PLAIN = range(10, 20)
NAMED = (VAR, FUNCTION, INTRINSIC)
TYPED = (CAST, FIELD)
# the fields that a kind uses, and the most that its flag may be; of the others all are 0
USED = {CONSTANT: ("width", "value"), VAR: ("ref",), REGISTER: ("flag", "ref", "width", "value"), FUNCTION: ("ref", "value"), FOLDED: ("flag",),
        CAST: ("ref",), BINARY: ("flag",), INTRINSIC: ("ref",), FIELD: ("ref", "value")}
FLAGS = {FOLDED: 1, BINARY: 17}
# how many children a kind has, the least and the most; none where it is not listed
KIDS = {CAST: (1, 1), DEREF: (1, 1), ADDRESS: (1, 1), TERNARY: (3, 3), BINARY: (2, 2), ASSIGN: (2, 2), CALL: (1, 1 + MOST_ARGUMENTS),
        INTRINSIC: (0, MOST_BYTES), RETURN: (0, 1), STRUCT: (0, MOST_BYTES), FIELD: (1, 1)}

# how tightly a form binds; a looser one stands in parentheses
L_RETURN, L_ASSIGN, L_CHOICE, L_UNARY, L_CALL, L_ATOM = 0, 1, 2, 13, 14, 15
OPERATORS = ("+", "-", "*", "/", "%", "&", "|", "^", "<<", ">>", "==", "!=", "<", "<=", ">", ">=", "&&", "||")
LEVELS = {"||": 3, "&&": 4, "|": 5, "^": 6, "&": 7, "==": 8, "!=": 8, "<": 9, "<=": 9, ">": 9, ">=": 9, "<<": 10, ">>": 10,
          "+": 11, "-": 11, "*": 12, "/": 12, "%": 12}
# the level that an operand is shown at where C's own leaves a reader in doubt, and the levels whose operators may repeat without parentheses
CLEARER = {3: 5, 4: 5, 5: L_UNARY, 6: L_UNARY, 7: L_UNARY, 8: 10, 9: 10, 10: L_UNARY}
REPEATED = (3, 4, 5, 6, 7)
SIGNS = {TRUE: "true", FALSE: "false", STRING: "string", PLAIN: "plain"}
REGISTER_FIELDS = {"class": LAST8, "index": LAST16, "bits": LAST32, "position": LAST64}

RESERVED = {"at", "case", "default", "else", "end", "false", "folded", "goto", "if", "intrinsic", "names", "node", "plain", "register",
            "return", "string", "switch", "tree", "true", "types"}
TYPE_WORDS = {"_Bool", "bool", "char", "const", "double", "enum", "float", "int", "long", "short", "signed", "struct", "union", "unsigned",
              "void", "volatile"}

# the types whose width and sign a run knows, but pointers, without `const`, `volatile`, `signed` and `unsigned`
KNOWN_TYPES = {"", "_Bool", "bool", "char", "short", "short int", "int", "long", "long int", "long long", "long long int", "int8_t", "int16_t",
               "int32_t", "int64_t", "uint8_t", "uint16_t", "uint32_t", "uint64_t", "intptr_t", "uintptr_t", "size_t", "ssize_t"}

SKIP = re.compile(r"(?:\s+|//[^\n]*|/\*.*?\*/)*", re.DOTALL)
WORD = r"[A-Za-z_][A-Za-z0-9_]*"
DIGITS = r"0[xX][0-9a-fA-F]+|0|[1-9][0-9]*"
AFTER = r"(?![0-9A-Za-z_])"
NUMBER = "(" + DIGITS + ")" + AFTER
SIGNED = "(-?)(" + DIGITS + ")" + AFTER
CONSTANT_NUMBER = "(-?)(" + DIGITS + ")(?:i(8|16|24|32|40|48|56|64))?" + AFTER
QUOTED_NAME = r"`((?:[^`\\\n]|\\.)*)`"
QUOTED_TYPE = r'"((?:[^"\\\n]|\\.)*)"'
BARE_TYPE = re.compile(WORD + r"(?: *\*| +" + WORD + r"|(?<=\*)" + WORD + ")*")
BINARY_SIGN = r"<<|>>|==|!=|<=|>=|&&|\|\||[-+*/%&|^<>]"
NUMBERED_BLOCK = re.compile(r"block_(0|[1-9][0-9]*)")
COMPOUND_SIGN = r"(<<|>>|[-+*/%&|^])="
# what an error shows of the text
SHOWN = re.compile(r"[0-9]*\.[0-9]\w*|\w+|#\s*\w+|'[^'\n]*'|" + COMPOUND_SIGN + r"|\+\+|--|->|.", re.DOTALL)

# What C has and the form has not, where it is met: its pattern, and what is written instead. None of them begins what can stand there.
OPERATORS_INSTEAD = (
    (COMPOUND_SIGN, r"for x \1= y write x = x \1 y"),
    (r"([-+])\1(?![0-9])", r"for x\1\1 write x = x \1 1, as a statement of its own"),
    ("->", "for s->r write *(uint16_t *)(s + 2), with r's type and its offset in bytes"),
    (r"\.", "for s.r write *(uint16_t *)(&s + 2), with r's type and its offset in bytes"),
    (r"\[", "for s[2] write *(uint16_t *)(s + 4), with the element's type and its offset in bytes"))
OPERANDS_INSTEAD = (
    (r"([-+])\1(?![0-9])", r"for \1\1x write x = x \1 1, as a statement of its own"),
    ("[-!~]", "for -x write 0 - x, for !x write x == 0, for ~x write x ^ -1"),
    (r"\+", "for +x write x"),
    ('"', "the file has no letters of a text: write string"),
    ("'", "for 'A' write its number, 65 or 65i8"),
    (r"\.[0-9]", "there are no numbers with a point"),
    (r"sizeof\s+[A-Za-z_]|sizeof\s*\(\s*(?:%s|\w+_t)\b" % "|".join(sorted(TYPE_WORDS)), "for sizeof write the number of bytes"),
    ("#", "there is no preprocessor"))
NUMBERS_INSTEAD = (
    (r"-?[0-9]+(?:\.|[eE][-+]?[0-9])", "there are no numbers with a point"),
    (r"-?0[0-9]", "none begins with 0, as octal ones do in C: write it decimal or hexadecimal"),
    (r"-?(?:0[xX][0-9a-fA-F]+|[0-9]+)[uUlL]+\b", "for 5u write (uint32_t)5, for 5L write 5i64"))
CAST_INSTEAD = ' (for a cast write a type of C, such as (uint16_t)x; one of any other name is quoted, ("%s")x, and is 64 bits wide)'
LOOP_INSTEAD = "for a loop write a label, and goto it: if (i < 3) goto again; else goto done;"
STATEMENTS_INSTEAD = (
    (r"(?:for|while|do)\b", LOOP_INSTEAD),
    (r"\{", "statements have no braces around them: a block begins with a label"),
    (r"(?!(?:%s)\b)\w+\s+\**\w+\s*[;=,[]" % "|".join(sorted(RESERVED)), "declarations stand before the first label"),
    (r"(?:%s|\w+_t)\b" % "|".join(sorted(TYPE_WORDS)), "declarations stand before the first label"))
TYPES_INSTEAD = "types are not declared: a field is told by its own type and its offset where it is used"
LOCALS_INSTEAD = (
    (",", "one name to a declaration: int a; int b;"),
    ("=", "a declaration has no value: write the assignment after a label"),
    (r"\[", "there are no arrays: write a symbol of the world"))
PARAMETERS_INSTEAD = (
    (r"\[", "there are no arrays: write a pointer"),
    ("=", "a parameter has no value: its argument stands in call(..)"))
GLOBALS_INSTEAD = ((r"[;=,\[]", "there are no globals: write a symbol of the world"),)
ENDS_INSTEAD = ((r"(%s)\s*:" % WORD, r"a block does not run on into the next: goto \1;"),)
GOTOS_INSTEAD = (
    (r"if\b", "for else if write else goto a label, and the second if after that label"),
    (r"case\b", "each case has a goto of its own"),
    ("", "what is done there stands in a block of its own, after a label"))
CASES_INSTEAD = (
    (r"default\b", "there is no default: a value without a case stops the run"),
    (r"break\b", "a case is a goto, and has no break"))
# what begins after a routine's end, and never in it
AFTER_ROUTINE = r"(?s:world%s\{)|call\s*\([^;{}]*\)\s*(?:steps|depth)\b" % SKIP.pattern
# the same for words that can be names, so that a text with them is taken
NAMES_INSTEAD = {"break": "for break write goto and a label", "continue": "for continue write goto and a label", "do": LOOP_INSTEAD,
                 "for": LOOP_INSTEAD, "while": LOOP_INSTEAD, "sizeof": "for sizeof write the number of bytes", "NULL": "for NULL write 0i64"}


class Wrong(Exception):
    """A text that makes no files: the line and the column, and what was expected there."""


class Refused(Exception):
    """Files that are not accepted, with the number and the node that a run tells of them, or files that would be too long."""

    def __init__(self, message, number=0, node=0):
        super().__init__(message)
        self.number, self.node = number, node


# ---- what text and files stand for

class Node:
    """A node with all under it. `ref` is a name, a type (its text, or its number) or a register's index."""

    def __init__(self, kind, kids=(), flag=0, ref=0, width=0, value=0):
        self.kind, self.kids, self.flag, self.ref, self.width, self.value = kind, list(kids), flag, ref, width, value
        self.span = 1 + sum(kid.span for kid in self.kids)
        self.chain = 1 + max((kid.chain for kid in self.kids), default=0)
        # of one that is read from a text: whether it stands in parentheses, and the place of a variable or of a cast's type without quotes
        self.wrapped, self.at = False, None

    def all(self):
        """The node and all under it, in the file's order."""
        yield self
        for kid in self.kids:
            yield from kid.all()


class Routine:
    """A routine. A declaration is (type, name); a statement (address or None, root); a block (statement count, end)."""

    def __init__(self):
        self.name, self.address, self.result = "", 0, ""
        self.params, self.locals = [], []
        self.names, self.types = [], []
        self.trees, self.statements, self.blocks = [], [], []

    def nodes(self):
        for tree in self.trees:
            yield from tree.all()

    def used_names(self):
        return {self.name} | {name for _, name in self.params + self.locals} | {n.ref for n in self.nodes() if n.kind in NAMED}

    def used_types(self):
        """The types in order of use, as text or number."""
        return [self.result] + [kind for kind, _ in self.params + self.locals] + [n.ref for n in self.nodes() if n.kind in TYPED]

    def type_table(self, listed):
        """The types listed, then those used beside them."""
        return listed + list(dict.fromkeys(kind for kind in self.used_types() if isinstance(kind, str) and kind not in listed))


class End:
    """How a block ends; `taken` is also a goto's target. A case is (value, target)."""

    def __init__(self, kind, address=None, root=0, taken=0, following=0, cases=()):
        self.kind, self.address, self.root, self.taken, self.following, self.cases = kind, address, root, taken, following, list(cases)


class World:
    """A world. A symbol is (name, address, size); a region (address, bytes)."""

    def __init__(self):
        self.names, self.symbols, self.regions = [], [], []


class Call:
    def __init__(self, steps=STEPS, depth=DEPTH, arguments=()):
        self.steps, self.depth, self.arguments = steps, depth, list(arguments)


# ---- files from them

def file_of(name, parts):
    """A file of these bodies."""
    table, at = struct.pack("<H", len(parts)), 2 + 4 * len(parts)
    size = at + sum(len(part) for part in parts)
    if size > MOST_BYTES:
        raise Refused("%s would have %d bytes, and a file has at most %d" % (name, size, MOST_BYTES))
    for part in parts:
        table += struct.pack("<HH", at, len(part))
        at += len(part)
    return table + b"".join(parts)


def listed(words):
    return b"".join(bytes([len(word)]) + word.encode("ascii") for word in words)


def numbers(words):
    """Each word's number: the first place of one that stands there twice."""
    found = {}
    for number, word in enumerate(words):
        found.setdefault(word, number)
    return found


def address_field(address):
    return struct.pack("<BQ", 0 if address is None else 1, address or 0)


def routine_file(r):
    names = sorted(set(r.names) | r.used_names())
    types = r.type_table(r.types)
    name_number, type_number = numbers(names), numbers(types)

    def variable(kind, name):
        return name_number[name], kind if isinstance(kind, int) else type_number[kind]

    def node(n):
        ref = name_number[n.ref] if n.kind in NAMED else type_number.get(n.ref, n.ref) if n.kind in TYPED else n.ref
        return struct.pack("<BBHIIQ", n.kind, n.flag, ref, n.width, n.span, n.value)
    name, result = variable(r.result, r.name)
    head = struct.pack("<HQHB", name, r.address, result, len(r.params))
    head += b"".join(struct.pack("<HH", *variable(*one)) for one in r.params + r.locals)
    nodes = b"".join(node(n) for n in r.nodes())
    statements = b"".join(address_field(address) + struct.pack("<I", root) for address, root in r.statements)
    parts = [listed(names), listed(types), head, nodes, statements]
    file_of(FILES[0], parts)
    return file_of(FILES[0], parts + [b"".join(block_entry(count, end) for count, end in r.blocks)])


def block_entry(count, end):
    taken = len(end.cases) if end.kind == SWITCH else end.taken
    entry = struct.pack("<HB", count, end.kind) + address_field(end.address) + struct.pack("<III", end.root, taken, end.following)
    return entry + b"".join(struct.pack("<qI", value, target) for value, target in end.cases)


def world_file(w):
    names = sorted(set(w.names) | {name for name, _, _ in w.symbols})
    number = numbers(names)
    symbols = b"".join(struct.pack("<HBQ", number[name], size, address) for name, address, size in sorted(w.symbols))
    regions = b"".join(struct.pack("<QI", address, len(data)) + data for address, data in sorted(w.regions))
    return file_of(FILES[1], [listed(names), symbols, regions])


def call_file(c):
    return file_of(FILES[2], [struct.pack("<II", c.steps, c.depth) + b"".join(struct.pack("<Q", a) for a in c.arguments)])


# ---- them from files

class Reader:
    """Bytes of a file, read from the first on. The file is refused by `refusal` where they are wrong, or end before what is read."""

    def __init__(self, name, data, number):
        self.name, self.data, self.refusal, self.at = name, data, number, 0

    def refuse(self, why):
        raise Refused("%s is no accepted file: refused %d: %s" % (self.name, self.refusal, why), self.refusal)

    def refuse_node(self, number, node, why):
        raise Refused("%s is no accepted file: refused %d at node %d: %s" % (self.name, number, node, why), number, node)

    def take(self, size):
        if self.at + size > len(self.data):
            self.refuse("it is too short")
        self.at += size
        return self.data[self.at - size:self.at]

    def number(self, size):
        return int.from_bytes(self.take(size), "little")

    def case_value(self):
        return int.from_bytes(self.take(8), "little", signed=True)

    def more(self):
        return self.at < len(self.data)

    def bodies(self, *numbers):
        """The bodies of a whole file, each with its number."""
        if len(self.data) > MOST_BYTES:
            self.refuse("it has %d bytes" % len(self.data))
        if self.number(2) != len(numbers):
            self.refuse("its table does not tell %d bodies" % len(numbers))
        table = [(self.number(2), self.number(2)) for _ in numbers]
        found = []
        for (offset, size), number in zip(table, numbers):
            if offset != self.at:
                self.refuse("its table has a gap or an overlap")
            found.append(Reader(self.name, self.take(size), number))
        if self.more():
            self.refuse("it is too long")
        return found

    def texts(self, least, low):
        found = []
        while self.more():
            found.append(self.take(self.number(1)).decode("latin-1"))
            if not is_fitting(found[-1], least, low):
                self.refuse("it has a text %r" % found[-1])
        if len(found) > MOST_WORDS:
            self.refuse("it has %d texts" % len(found))
        return found

    def names(self):
        found = self.texts(1, "!")
        if any(first >= second for first, second in zip(found, found[1:])):
            self.refuse("its names do not ascend")
        return found

    def one_of(self, words, what):
        number = self.number(2)
        if number >= len(words):
            self.refuse("there is no %s %d" % (what, number))
        return words[number]

    def address(self):
        flag, address = self.number(1), self.number(8)
        if flag > 1 or address and not flag:
            self.refuse("there is no address with flag %d" % flag)
        return address if flag else None


class RoutineReader:
    """A routine's bodies, read in the order in which a run looks at them."""

    def __init__(self, data):
        names, types, self.head, self.nodes, self.statements, self.blocks = Reader(FILES[0], data, 1).bodies(2, 3, 4, 6, 7, 7)
        self.names, self.types = names.names(), types.texts(0, " ")
        # a type by its text, or by its number where that text stands before it
        first = numbers(self.types)
        self.kinds = [text if first[text] == number else number for number, text in enumerate(self.types)]
        self.count = len(self.nodes.data) // 20

    def read(self):
        r = Routine()
        self.read_head(r)
        for at in range(self.count):
            self.check_node(at)
        while self.nodes.more():
            r.trees.append(self.tree(self.count, None, 1))
        while self.statements.more():
            r.statements.append((self.statements.address(), self.root(self.statements)))
        while self.blocks.more():
            r.blocks.append((self.blocks.number(2), self.end()))
        if sum(count for count, _ in r.blocks) != len(r.statements):
            self.blocks.refuse("its blocks do not take its statements")
        used = r.used_names()
        r.names = [name for name in self.names if name not in used]
        r.types = [] if r.type_table([]) == self.types else self.types
        return r

    def read_head(self, r):
        b = self.head
        r.name, r.address = b.one_of(self.names, "name"), b.number(8)
        r.result, params = b.one_of(self.kinds, "type"), b.number(1)
        found = []
        while b.more():
            name = b.one_of(self.names, "name")
            found.append((b.one_of(self.kinds, "type"), name))
        if params > min(len(found), MOST_ARGUMENTS):
            b.refuse("its head has %d variables, and %d parameters" % (len(found), params))
        r.params, r.locals = found[:params], found[params:]

    def check_node(self, at):
        """A node by itself: its kind, what the kind bars, what it does not use."""
        kind, flag, ref, width, _, value = struct.unpack_from("<BBHIIQ", self.nodes.data, 20 * at)
        if kind > PLAIN:
            self.nodes.refuse_node(5, at, "there is no kind %d" % kind)
        if kind == CONSTANT and not 1 <= width <= 8:
            self.nodes.refuse_node(30, at, "there is no Constant of width %d" % width)
        if flag > FLAGS.get(kind, LAST8):
            self.nodes.refuse_node(30, at, "kind %d has no flag %d" % (kind, flag))
        if kind in NAMED and ref >= len(self.names):
            self.nodes.refuse_node(30, at, "there is no name %d" % ref)
        if kind in TYPED and ref >= len(self.types):
            self.nodes.refuse_node(30, at, "there is no type %d" % ref)
        for field, found in (("flag", flag), ("ref", ref), ("width", width), ("value", value)):
            if found and field not in USED.get(kind, ()):
                self.nodes.refuse_node(31, at, "kind %d has no %s, and %d stands there" % (kind, field, found))

    def tree(self, end, parent, chain):
        """The tree that begins at the next node, which must end by `end`."""
        b = self.nodes
        at = b.at // 20
        kind, flag = b.number(1), b.number(1)
        ref = self.reference(kind)
        width, span, value = b.number(4), b.number(4), b.number(8)
        if span < 1 or at + span > end or chain > MOST_CHAIN or (kind == FIELD) != (parent == STRUCT):
            b.refuse("node %d is not as it must be" % at)
        kids = []
        while b.at // 20 < at + span:
            kids.append(self.tree(at + span, kind, chain + 1))
        least, most = KIDS.get(kind, (0, 0))
        if not least <= len(kids) <= most:
            b.refuse("node %d has a wrong number of children" % at)
        return Node(kind, kids, flag, ref, width, value)

    def reference(self, kind):
        if kind in NAMED:
            return self.nodes.one_of(self.names, "name")
        if kind in TYPED:
            return self.nodes.one_of(self.kinds, "type")
        return self.nodes.number(2)

    def root(self, b):
        root = b.number(4)
        if root >= self.count or self.nodes.data[20 * root] == FIELD:
            b.refuse("node %d is no root" % root)
        return root

    def end(self):
        b = self.blocks
        kind, address = b.number(1), b.address()
        root = self.root(b) if kind in (BRANCH, SWITCH) else b.number(4)
        taken, following = b.number(4), b.number(4)
        if kind > SWITCH:
            b.refuse("a block ends in no known way")
        if kind in (LEAVE, GOTO) and (address is not None or root) or kind == LEAVE and taken or kind != BRANCH and following:
            b.refuse("a field that a block's end does not use is not 0")
        if kind != SWITCH:
            return End(kind, address, root, taken, following)
        return End(kind, address, root, cases=[(b.case_value(), b.number(4)) for _ in range(taken)])


def read_world(data):
    names, symbols, regions = Reader(FILES[1], data, 8).bodies(8, 8, 8)
    w, words = World(), names.names()
    while symbols.more():
        name, size, address = symbols.one_of(words, "name"), symbols.number(1), symbols.number(8)
        if w.symbols and name <= w.symbols[-1][0]:
            symbols.refuse("its symbols do not ascend")
        w.symbols.append((name, address, size))
    free = 0
    while regions.more():
        address, size = regions.number(8), regions.number(4)
        if size < 1 or address < free or address + size > LAST64 + 1:
            regions.refuse("the region at 0x%x is not as it must be" % address)
        free = address + size
        w.regions.append((address, regions.take(size)))
    used = {name for name, _, _ in w.symbols}
    w.names = [name for name in words if name not in used]
    return w


def read_call(data):
    b, = Reader(FILES[2], data, 9).bodies(9)
    c = Call(b.number(4), b.number(4))
    while b.more():
        c.arguments.append(b.number(8))
    if c.steps > MOST_STEPS or c.depth > MOST_DEPTH or len(c.arguments) > MOST_ARGUMENTS:
        b.refuse("it is over its limits")
    return c


# ---- text from them

def is_type_word(word):
    return word in TYPE_WORDS or word.endswith("_t")


def is_fitting(text, least, low):
    """Whether a file can hold a text whose letters are from `low` on, as a name or a type."""
    return least <= len(text) <= MOST_LETTERS and all(low <= letter <= "~" for letter in text)


def is_plain_name(word):
    return re.fullmatch(WORD, word) is not None and word not in RESERVED and not is_type_word(word)


def is_bare_type(text):
    """Whether a type can stand without quotes where a type must stand."""
    return BARE_TYPE.fullmatch(text) is not None and not RESERVED & set(re.findall(WORD, text))


def is_bare_cast(text):
    """Whether a type can stand without quotes in parentheses, where an expression could stand too."""
    return is_bare_type(text) and (text.endswith("*") or any(is_type_word(word) for word in re.findall(WORD, text)))


def quoted(text, mark):
    return mark + text.replace("\\", "\\\\").replace(mark, "\\" + mark) + mark


def name_text(name):
    return name if is_plain_name(name) else quoted(name, "`")


def type_text(kind, bare=is_bare_type):
    if isinstance(kind, int):
        return "#%d" % kind
    return kind if bare(kind) else quoted(kind, '"')


def declared(kind, name):
    text = type_text(kind)
    return text + ("" if text.endswith("*") else " ") + name_text(name)


def number_text(value, most=99999):
    """A number in decimal up to `most`, else in hexadecimal."""
    return "%d" % value if value <= most else "0x%x" % value


def constant_text(n):
    """A constant; one of 8 bytes is likely to be an address."""
    if n.width == 4:
        return number_text(n.value)
    return "%si%d" % (number_text(n.value, 9) if n.width == 8 else number_text(n.value), 8 * n.width)


def register_text(n):
    fields = zip(REGISTER_FIELDS, (n.flag, n.ref, n.width, n.value))
    return "register(%s)" % ", ".join("%s=%s" % (word, number_text(value)) for word, value in fields)


def spelled(n, level=L_RETURN):
    """A node's text, in parentheses where it binds looser than `level`."""
    text, own = spelled_alone(n)
    return "(%s)" % text if own < level else text


def spelled_all(kids):
    return ", ".join(spelled(kid, L_ASSIGN) for kid in kids)


def spelled_alone(n):
    """A node's text without parentheses, and how tightly it binds."""
    if n.kind in KIDS and n.kind not in (STRUCT, FIELD):
        return spelled_parent(n)
    if n.kind == STRUCT:
        return ("{ %s }" % ", ".join(field_text(kid) for kid in n.kids) if n.kids else "{}"), L_ATOM
    if n.kind == CONSTANT:
        return constant_text(n), L_ATOM
    if n.kind == VAR:
        return name_text(n.ref), L_ATOM
    if n.kind == REGISTER:
        return register_text(n), L_ATOM
    if n.kind == FUNCTION:
        return "%s@0x%x" % (name_text(n.ref), n.value), L_ATOM
    if n.kind == FOLDED:
        return "folded " + ("true" if n.flag else "false"), L_ATOM
    return SIGNS[n.kind], L_ATOM


def field_text(n):
    return "%s at %s = %s" % (type_text(n.ref), number_text(n.value), spelled(n.kids[0], L_ASSIGN))


def spelled_binary(n):
    """With the parentheses that C needs, and those that a C compiler asks for."""
    left, right = n.kids
    sign = OPERATORS[n.flag]
    level = LEVELS[sign]
    asked = CLEARER.get(level, level)
    repeated = level in REPEATED and left.kind == BINARY and left.flag == n.flag
    return "%s %s %s" % (spelled(left, level if repeated else asked), sign, spelled(right, max(asked, level + 1))), level


def spelled_parent(n):
    if n.kind == RETURN:
        return " ".join(["return"] + [spelled(kid, L_ASSIGN) for kid in n.kids]), L_RETURN
    if n.kind == ASSIGN:
        return "%s = %s" % (spelled(n.kids[0], L_UNARY), spelled(n.kids[1], L_ASSIGN)), L_ASSIGN
    if n.kind == TERNARY:
        return "%s ? %s : %s" % (spelled(n.kids[0], L_CHOICE + 1), spelled(n.kids[1], L_CHOICE + 1), spelled(n.kids[2], L_CHOICE)), L_CHOICE
    if n.kind == BINARY:
        return spelled_binary(n)
    if n.kind == INTRINSIC:
        return "intrinsic %s(%s)" % (name_text(n.ref), spelled_all(n.kids)), L_ATOM
    if n.kind == CALL:
        return "%s(%s)" % (spelled(n.kids[0], L_CALL), spelled_all(n.kids[1:])), L_CALL
    before = {CAST: "(%s)" % type_text(n.ref, is_bare_cast) if n.kind == CAST else "", DEREF: "*", ADDRESS: "&"}[n.kind]
    return before + spelled(n.kids[0], L_UNARY), L_UNARY


def address_text(address):
    return "" if address is None else "0x%x: " % address


class RoutineText:
    """A routine's lines. Trees stand in the file's order: each at its first root where that keeps the order, else on a line of its own."""

    def __init__(self, r):
        self.r, self.lines, self.next, self.tops, at = r, [], 0, {}, 0
        for tree in r.trees:
            self.tops[at] = tree
            at += tree.span
        self.wanted = Counter([root for _, root in r.statements] + [end.root for _, end in r.blocks if end.kind in (BRANCH, SWITCH)])

    def text(self):
        r = self.r
        params = ", ".join(declared(*one) for one in r.params)
        self.lines += ["%s(%s) at 0x%x" % (declared(r.result, r.name), params, r.address), "{"]
        if r.names:
            self.put("names %s;" % ", ".join(map(name_text, r.names)))
        if r.types:
            self.put("types %s;" % ", ".join(map(type_text, r.types)))
        for one in r.locals:
            self.put(declared(*one) + ";")
        at = 0
        for number, (count, end) in enumerate(r.blocks):
            self.lines += ["", "block_%d:" % number]
            self.block(range(at, at + count), end)
            at += count
        while self.next in self.tops:
            self.spare()
        self.lines.append("}")
        return self.lines

    def put(self, text, comment=""):
        self.lines.append("    " + text + (comment and "  // " + comment))

    def spare(self):
        tree = self.tops[self.next]
        self.put("tree %s;" % spelled(tree), "node %d" % self.next)
        self.next += tree.span

    def stands_here(self, root):
        """Whether the tree at a root can stand here: no root that is still to come wants one before it."""
        at = self.next
        while at in self.tops and at < root and not self.wanted[at]:
            at += self.tops[at].span
        return at == root and at in self.tops

    def root(self, root):
        """A root's text, and its tree if that stands here."""
        self.wanted[root] -= 1
        if not self.stands_here(root):
            return "node %d" % root, None
        while self.next < root:
            self.spare()
        tree = self.tops[root]
        self.next += tree.span
        return spelled(tree), tree

    def block(self, numbers, end):
        tree = None
        for number in numbers:
            address, root = self.r.statements[number]
            text, tree = self.root(root)
            self.put(address_text(address) + text + ";", "statement %d, node %d" % (number, root))
        if end.kind == GOTO:
            self.put("goto block_%d;" % end.taken)
        elif end.kind == BRANCH:
            text, _ = self.root(end.root)
            choice = "%sif (%s) goto block_%d; else goto block_%d;" % (address_text(end.address), text, end.taken, end.following)
            self.put(choice, "node %d" % end.root)
        elif end.kind == SWITCH:
            self.switch(end)
        elif not returns(tree):
            self.put("end;")

    def switch(self, end):
        text, _ = self.root(end.root)
        self.put("%sswitch (%s) {" % (address_text(end.address), text), "node %d" % end.root)
        for value, target in end.cases:
            self.put("    case %d: goto block_%d;" % (value, target))
        self.put("}")


def returns(tree):
    """Whether a block's last statement is a return, after which its end goes without saying."""
    return tree is not None and tree.kind == RETURN


def world_text(w):
    lines = ["world", "{"]
    if w.names:
        lines.append("    names %s;" % ", ".join(map(name_text, w.names)))
    for name, address, size in w.symbols:
        lines.append("    symbol %s at 0x%x%s;" % (name_text(name), address, " size %d" % size if size else ""))
    for address, data in w.regions:
        rows = [data[at:at + 16].hex(" ") for at in range(0, len(data), 16)]
        lines.append("    0x%x: %s;" % (address, "\n        ".join(rows)))
    return lines + ["}"]


def call_text(c):
    return ["call(%s) steps %d depth %d;" % (", ".join(map(number_text, c.arguments)), c.steps, c.depth)]


# ---- them from text

def unquoted(found):
    """What stands between the marks of a quoted name, type or file."""
    return re.sub(r"\\(.)", r"\1", found[1])


def close_to(word, known):
    """A known word that is spelt much like this one, as the end of a message."""
    found = difflib.get_close_matches(word, sorted(known), 1, 0.65)
    return " (is '%s' meant?)" % found[0] if found else ""


class Scanner:
    """A text, read from the first letter on. Blanks and comments are skipped after everything that is taken."""

    def __init__(self, source):
        self.source, self.at = source, 0
        # the places of the '{' that are open
        self.braces = []
        self.skip()

    def skip(self):
        self.at = SKIP.match(self.source, self.at).end()
        if self.source.startswith("/*", self.at):
            self.wrong("expected */ at the end of this comment, found the end of the text")

    def look(self, pattern):
        return re.compile(pattern).match(self.source, self.at)

    def take(self, pattern):
        found = self.look(pattern)
        if found:
            self.at = found.end()
            self.skip()
        return found

    def word(self, word):
        return self.take(word + r"\b")

    def need(self, pattern, what):
        return self.take(pattern) or self.fail(what)

    def mark(self, sign, instead=()):
        self.take(re.escape(sign)) or self.fail("'%s'" % sign + self.instead(instead))

    def left_brace(self, instead=()):
        self.braces.append(self.at)
        self.mark("{", instead)

    def right_brace(self):
        """Whether a '}' stands here. It belongs to the last '{' that is open."""
        found = self.take("}")
        if found:
            self.braces.pop()
        return found

    def line(self, at):
        return self.source.count("\n", 0, at) + 1

    def told(self, at, message):
        """A message with its line and column."""
        return "%d:%d: %s" % (self.line(at), at - self.source.rfind("\n", 0, at), message)

    def wrong(self, message, at=None):
        raise Wrong(self.told(self.at if at is None else at, message))

    def fail(self, what, at=None):
        at = self.at if at is None else at
        found = SHOWN.match(self.source, at)
        shown = "'%s'" % found[0] if found else "the end of the text"
        if self.braces and not found:
            shown += ", and the '{' of line %d has no '}'" % self.line(self.braces[-1])
        self.wrong("expected %s, found %s" % (what, shown), at)

    def instead(self, known):
        """What is written instead of what stands here, in parentheses, if it is one of those that are known."""
        for pattern, text in known:
            found = self.look(pattern)
            if found:
                return " (%s)" % found.expand(text)
        return ""

    def digits(self, pattern, what, told=""):
        """A number as the pattern has it, `told` what else is said of it."""
        instead = self.instead(NUMBERS_INSTEAD)
        return self.fail(what + instead) if instead else self.need(pattern, what + told)

    def number(self, what, most):
        at = self.at
        value = int(self.digits(NUMBER, what)[1], 0)
        return value if value <= most else self.wrong("expected %s up to %d, found %d" % (what, most, value), at)

    def signed(self, what, least, most):
        at = self.at
        sign, digits = self.digits(SIGNED, what).groups()
        value = int(sign + digits, 0)
        return value if least <= value <= most else self.wrong("expected %s from %d to %d, found %d" % (what, least, most, value), at)

    def name(self, what="a name"):
        at, found = self.at, self.take(QUOTED_NAME)
        if found:
            return self.letters(unquoted(found), 1, "!", at)
        word = self.need(WORD, what)[0]
        if not is_plain_name(word):
            self.fail("%s (as a name it is written `%s`)" % (what, word), at)
        return self.letters(word, 1, "!", at)

    def letters(self, text, least, low, at):
        """A name or type, if it is one that a file can hold."""
        if not is_fitting(text, least, low):
            what = "a name of 1 to 64 letters without blanks" if least else "a type of at most 64 letters"
            self.wrong("expected %s, found %r" % (what, text), at)
        return text

    def items(self, one, close):
        """What `one` reads, with commas between, up to `close`."""
        found = []
        while not self.take(close):
            if found:
                self.need(",", "',' or '%s'" % close[-1])
            found.append(one())
        return found


class TypeScanner(Scanner):
    """The types and declarations of a text."""

    def __init__(self, source):
        super().__init__(source)
        # the places of types that are told by number, and of types without quotes that something has
        self.numbered, self.bare = [], []

    def type(self):
        at = self.at
        if self.look(r"#\s*[A-Za-z]"):
            self.fail("a type (there is no preprocessor)")
        if self.take("#"):
            self.numbered.append((at, self.number("a type's number", LAST16)))
            return self.numbered[-1][1]
        found = self.take(QUOTED_TYPE)
        if found:
            return self.letters(unquoted(found), 0, " ", at)
        return self.bare_type(self.run_of_words() or self.fail("a type"))

    def listed_type(self):
        return self.fail("a type's text") if self.look("#") else self.type()

    def run_of_words(self):
        """The places of the words and stars that stand next to each other on this line."""
        places = []
        while True:
            found = self.look(WORD + r"|\*")
            if not found or found[0] in RESERVED or places and "\n" in self.source[places[-1][1]:found.start()]:
                return places
            places.append(found.span())
            self.take(WORD + r"|\*")

    def bare_type(self, places):
        at, text = places[0][0], self.source[places[0][0]:places[-1][1]]
        if not is_bare_type(text):
            self.wrong("expected a type of words and stars on one line, or one in quotes, found %r" % text, at)
        return self.letters(text, 0, " ", at)

    def had(self, kind, at):
        """A type without quotes that a variable, a field or a cast has."""
        self.bare.append((at, kind))
        return kind

    def declaration(self):
        """A type and a name: the last word is the name."""
        at = self.at
        if self.look('["#]'):
            kind = self.type()
            return kind, self.name()
        places = self.run_of_words()
        if self.look("`") and places:
            return self.had(self.bare_type(places), at), self.name()
        if len(places) < 2:
            self.fail("a type and a name", at)
        start, end = places.pop()
        word = self.source[start:end]
        if not is_plain_name(word):
            self.fail("a name after the type", start)
        return self.had(self.bare_type(places), at), self.letters(word, 1, "!", start)

    def cast(self):
        """The type of a cast that begins here, and its place if it is without quotes; or None."""
        if self.take(r'\((?=\s*["#])'):
            kind = self.type()
            self.mark(")")
            return kind, None
        found = self.look(r"\(\s*(%s)\s*\)" % BARE_TYPE.pattern)
        if not found or not is_bare_cast(found[1]):
            return None
        self.take(r"\(\s*%s\s*\)" % BARE_TYPE.pattern)
        at = found.start(1)
        return self.had(self.letters(found[1], 0, " ", at), at), at


class ExpressionScanner(TypeScanner):
    """The expressions of a text."""

    def __init__(self, source):
        super().__init__(source)
        # of each variable by its place: its name, and a kind: VAR, ADDRESS under '&', CALL in a callee's place, CAST in parentheses like a type
        self.uses = {}

    def node(self, kind, kids=(), **fields):
        n = Node(kind, kids, **fields)
        if n.chain > MOST_CHAIN:
            self.wrong("expected at most %d nodes from parent to child" % MOST_CHAIN)
        return n

    def expression(self):
        if not self.word("return"):
            return self.assignment()
        return self.node(RETURN, [] if self.look(r"[;)]|$") else [self.assignment()])

    def assignment(self):
        at, left = self.at, self.choice()
        if not self.take("=(?!=)"):
            return left
        if left.kind in (BINARY, TERNARY) and not left.wrapped:
            self.wrong("expected parentheses around the left side of '='", at)
        return self.node(ASSIGN, [left, self.assignment()])

    def choice(self):
        condition = self.binary(L_CHOICE + 1)
        if not self.take(r"\?"):
            return condition
        first = self.assignment()
        self.mark(":")
        return self.node(TERNARY, [condition, first, self.choice()])

    def binary(self, level):
        left = self.unary()
        while True:
            instead = self.instead(OPERATORS_INSTEAD)
            if instead:
                self.fail("an operator" + instead)
            found = self.look(BINARY_SIGN)
            if not found or LEVELS[found[0]] < level:
                return left
            self.take(BINARY_SIGN)
            right = self.binary(LEVELS[found[0]] + 1)
            left = self.node(BINARY, [left, right], flag=OPERATORS.index(found[0]))

    def unary(self):
        sign = self.take("[*&]")
        if sign:
            n = self.node(DEREF if sign[0] == "*" else ADDRESS, [self.unary()])
            self.use(n.kids[0], n.kind)
            return n
        found = self.cast()
        if found:
            n = self.node(CAST, [self.unary()], ref=found[0])
            n.at = found[1]
            return n
        return self.called(self.atom())

    def use(self, n, kind):
        """Keep of a variable what it stands under."""
        if n.kind == VAR:
            self.uses[n.at] = n.ref, kind

    def called(self, n):
        at = self.at
        while self.take(r"\("):
            arguments = self.items(self.assignment, r"\)")
            if len(arguments) > MOST_ARGUMENTS:
                self.wrong("expected at most %d arguments, found %d" % (MOST_ARGUMENTS, len(arguments)), at)
            self.use(n, CAST if n.wrapped else CALL)
            n = self.node(CALL, [n] + arguments)
        return n

    def atom(self):
        if self.look("-?[0-9]"):
            return self.constant()
        if self.take(r"\("):
            return self.wrapped()
        if self.look("{"):
            return self.struct()
        for kind, word in SIGNS.items():
            if self.word(word):
                return self.node(kind)
        if self.word("folded"):
            return self.node(FOLDED, flag=int(self.need(r"(true|false)\b", "true or false")[1] == "true"))
        if self.word("register"):
            return self.register()
        if self.word("intrinsic"):
            name = self.name()
            self.mark("(")
            return self.node(INTRINSIC, self.items(self.assignment, r"\)"), ref=name)
        return self.named()

    def named(self):
        at, instead = self.at, self.instead(OPERANDS_INSTEAD)
        if instead:
            self.fail("an operand" + instead)
        name = self.name("an operand")
        if self.take("@"):
            return self.node(FUNCTION, ref=name, value=self.number("an address", LAST64))
        n = self.node(VAR, ref=name)
        n.at = at
        self.use(n, VAR)
        return n

    def wrapped(self):
        n = self.expression()
        self.mark(")")
        if n.kind == VAR and self.look("[0-9A-Za-z_`]"):
            self.fail("an operator" + CAST_INSTEAD % n.ref)
        if self.look("[-*&]"):
            self.use(n, CAST)
        n.wrapped = True
        return n

    def sized(self):
        """A number with its width in bits, None if it has none, and its place."""
        at, found = self.at, self.digits(CONSTANT_NUMBER, "a number", " such as 200, 0xc8 or, with its width, 200i8 (to i64)")
        return int(found[1] + found[2], 0), found[3] and int(found[3]), at

    def constant(self):
        value, bits, at = self.sized()
        bits = bits or 32
        if not -2 ** (bits - 1) <= value <= LAST64:
            self.wrong("expected a number from %d to %d, found %d" % (-2 ** (bits - 1), LAST64, value), at)
        return self.node(CONSTANT, width=bits // 8, value=value if value >= 0 else value + 2 ** bits)

    def register(self):
        fields = dict.fromkeys(REGISTER_FIELDS, 0)
        self.mark("(")

        def one():
            word = self.need(r"(class|index|bits|position)\b", "class, index, bits or position")[0]
            self.mark("=")
            fields[word] = self.number("a number", REGISTER_FIELDS[word])
        self.items(one, r"\)")
        return self.node(REGISTER, flag=fields["class"], ref=fields["index"], width=fields["bits"], value=fields["position"])

    def struct(self):
        self.left_brace()
        fields = self.items(self.field, "}")
        self.braces.pop()
        return self.node(STRUCT, fields)

    def field(self):
        at, bare = self.at, not self.look('["#]')
        kind = self.type()
        if bare:
            self.had(kind, at)
        self.word("at") or self.fail("at and the field's offset")
        offset = self.number("an offset", LAST64)
        self.mark("=")
        return self.node(FIELD, [self.assignment()], ref=kind, value=offset)


class RoutineScanner(ExpressionScanner):
    """The routine of a text."""

    def __init__(self, source):
        super().__init__(source)
        self.r, self.planted, self.roots = Routine(), 0, []
        self.labels, self.targets = {}, []
        # the places of the parameters
        self.places = []
        # of the block that is open: how many statements it has, and whether the last one returns
        self.open, self.count, self.returned = False, 0, False

    def routine(self):
        start = self.at
        self.r.result, self.r.name = self.head()
        self.mark("(", GLOBALS_INSTEAD)
        self.r.params = [] if self.take(r"void\s*\)") else self.items(self.parameter, r"\)")
        if len(self.r.params) > MOST_ARGUMENTS:
            self.wrong("expected at most %d parameters, found %d" % (MOST_ARGUMENTS, len(self.r.params)), start)
        self.word("at") or self.fail("at and the routine's address, as in at 0x1000")
        self.r.address = self.number("an address", LAST64)
        self.left_brace()
        if self.word("names"):
            self.r.names = self.items(self.name, ";")
        if self.word("types"):
            self.r.types = self.items(self.listed_type, ";")
        while not self.look("}"):
            self.item()
        self.close()
        self.right_brace()
        self.finish(start)
        return self.r

    def head(self):
        """A routine's type and name."""
        if self.look(r"typedef\b[^;()]*[;{]|(?:struct|union|enum)\b[^;()]*\{"):
            self.fail("a routine (%s)" % TYPES_INSTEAD)
        return self.declaration()

    def parameter(self):
        self.places.append(self.at)
        found = self.declaration()
        if self.look(r"[\[=]"):
            self.fail("',' or ')'" + self.instead(PARAMETERS_INSTEAD))
        return found

    def item(self):
        if self.look(AFTER_ROUTINE):
            self.fail("'}' at the routine's end (the '{' of line %d is open)" % self.line(self.braces[-1]))
        if self.word("tree"):
            self.plant(self.expression())
            self.mark(";")
        elif self.look(WORD + r"\s*:"):
            self.label()
        elif self.open:
            self.statement()
        elif self.r.blocks:
            self.fail("a label (the block before has ended), a tree or '}'" + self.instead(STATEMENTS_INSTEAD))
        elif self.look(WORD + r"\s*[=(@]") or self.look(r"(return|goto|if|switch|end)\b|do\s*\{|[0-9(*{]"):
            self.fail("a declaration, or a label such as start: before the first statement" + self.instead(STATEMENTS_INSTEAD))
        else:
            self.r.locals.append(self.declaration())
            self.mark(";", LOCALS_INSTEAD)

    def plant(self, tree):
        """Put a tree after the others; gives its number."""
        self.r.trees.append(tree)
        self.planted += tree.span
        return self.planted - tree.span

    def root(self):
        """A root's number, and its tree if that stands here."""
        if self.look("node\\b"):
            self.roots.append(self.at)
            self.word("node")
            return self.number("a node's number", LAST32), None
        tree = self.expression()
        return self.plant(tree), tree

    def label(self):
        self.close()
        at = self.at
        word, number = self.take(WORD)[0], len(self.r.blocks)
        told = NUMBERED_BLOCK.fullmatch(word)
        if word in RESERVED or word in self.labels:
            self.fail("a label that is not there yet", at)
        if told and int(told[1]) != number:
            self.wrong("expected block_%d here, found %s" % (number, word), at)
        self.mark(":")
        self.labels[word] = number
        self.open, self.count, self.returned = True, 0, False

    def close(self):
        """The end of a block that says none."""
        if self.open and not self.returned:
            self.fail("the block's end: goto, if, switch, return or end" + self.instead(ENDS_INSTEAD))
        if self.open:
            self.ended(End(LEAVE))

    def ended(self, end):
        self.r.blocks.append((self.count, end))
        self.open = False

    def statement(self):
        at, address = self.at, None
        if self.look(NUMBER + r"\s*:"):
            address = self.number("an address", LAST64)
            self.mark(":")
        if address is not None and self.look(r"(goto|end)\b"):
            self.fail("a statement, if or switch (goto and end have no address)")
        if self.word("goto"):
            self.ended(End(GOTO, taken=self.target()))
        elif self.word("if"):
            self.branch(address)
        elif self.word("switch"):
            self.switch(address)
        elif self.word("end"):
            self.mark(";")
            self.ended(End(LEAVE))
        else:
            root, tree = self.evaluated()
            self.r.statements.append((address, root))
            self.count, self.returned = self.count + 1, returns(tree)

    def evaluated(self):
        """A statement's root and tree. Where it is wrong and begins as one that only C has, that is told."""
        at = self.at
        try:
            root, tree = self.root()
            self.need(";", "an operator or ';'")
        except Wrong:
            self.at = at
            instead = self.instead(STATEMENTS_INSTEAD)
            if instead:
                self.fail("a statement" + instead)
            raise
        return root, tree

    def target(self):
        """The label of a goto; its place stands for it until all labels are known."""
        self.targets.append((self.at, self.need(WORD, "a label")[0]))
        self.mark(";")
        return len(self.targets) - 1

    def goto(self):
        self.word("goto") or self.fail("goto" + self.instead(GOTOS_INSTEAD))
        return self.target()

    def condition(self):
        self.mark("(")
        root, _ = self.root()
        self.need(r"\)", "an operator or ')'")
        return root

    def branch(self, address):
        root, taken = self.condition(), self.goto()
        self.word("else") or self.fail("else (each if has one: else goto a label)")
        self.ended(End(BRANCH, address, root, taken, self.goto()))

    def switch(self, address):
        root, cases = self.condition(), []
        self.left_brace()
        while not self.right_brace():
            self.word("case") or self.fail("case or '}'" + self.instead(CASES_INSTEAD))
            value = self.signed("a number", -2 ** 63, 2 ** 63 - 1)
            self.mark(":")
            cases.append((value, self.goto()))
        self.ended(End(SWITCH, address, root, cases=cases))

    def finish(self, start):
        """What can be checked and told only with the whole routine."""
        numbered = [self.resolved(at, word) for at, word in self.targets]
        for _, end in self.r.blocks:
            end.taken = numbered[end.taken] if end.kind in (GOTO, BRANCH) else 0
            end.following = numbered[end.following] if end.kind == BRANCH else 0
            end.cases = [(value, numbered[target]) for value, target in end.cases]
        self.check_words(start)
        self.check_roots()

    def resolved(self, at, word):
        told = NUMBERED_BLOCK.fullmatch(word)
        if told and int(told[1]) <= LAST32:
            return int(told[1])
        if word not in self.labels:
            self.wrong("expected a label of this routine, found '%s'%s" % (word, close_to(word, self.labels)), at)
        return self.labels[word]

    def check_words(self, start):
        names, types = set(self.r.names) | self.r.used_names(), self.r.type_table(self.r.types)
        for words, what in ((names, "names"), (types, "types")):
            if len(words) > MOST_WORDS:
                self.wrong("expected at most %d %s, found %d" % (MOST_WORDS, what, len(words)), start)
        for at, number in self.numbered:
            if number >= len(types):
                self.wrong("expected a type below #%d, found #%d" % (len(types), number), at)

    def check_roots(self):
        kinds = [n.kind for n in self.r.nodes()] if self.roots else []
        for at in self.roots:
            number = int(re.compile(r"node\s+(%s)" % DIGITS).match(self.source, at)[1], 0)
            if number >= len(kinds) or kinds[number] == FIELD:
                self.wrong("expected a node of this routine that is no field, found node %d" % number, at)


class FormScanner(RoutineScanner):
    """A whole text. The files that it includes are told relative to a folder."""

    def __init__(self, source, folder):
        super().__init__(source)
        # the places of the call and its arguments
        self.folder, self.call_places = Path(folder), []

    def form(self):
        routine = self.routine()
        world = self.world() if self.word("world") else World()
        call = self.call() if self.look(r"call\b") else Call()
        if self.at < len(self.source):
            self.fail("world, call or the end of the text")
        return routine, world, call

    def world(self):
        w, start = World(), self.at
        self.left_brace()
        if self.word("names"):
            w.names = self.items(self.name, ";")
        places = []
        while not self.right_brace():
            at = self.at
            if self.word("symbol"):
                self.symbol(w, at)
            else:
                address = self.number("symbol, an address or '}'", LAST64)
                self.mark(":")
                w.regions.append((address, self.bytes()))
                places.append(at)
        if len(set(w.names) | {name for name, _, _ in w.symbols}) > MOST_WORDS:
            self.wrong("expected at most %d names in a world" % MOST_WORDS, start)
        self.check_regions(w, places)
        return w

    def symbol(self, w, at):
        name = self.name()
        self.word("at") or self.fail("at and the symbol's address")
        address = self.number("an address", LAST64)
        size = self.number("a size in bytes", LAST8) if self.word("size") else 0
        self.mark(";")
        if name in [known for known, _, _ in w.symbols]:
            self.wrong("expected a symbol that is not there yet, found %s" % name, at)
        w.symbols.append((name, address, size))

    def bytes(self):
        """Bytes of two hexadecimal digits, numbers with their width and files, up to ';'."""
        data = b""
        while not (data and self.take(";")):
            found = self.take("([0-9a-fA-F]{2})" + AFTER)
            data += bytes.fromhex(found[1]) if found else self.included() if self.word("include") else self.sized_bytes()
        return data

    def included(self):
        """The bytes of a file."""
        at, name = self.at, unquoted(self.need(QUOTED_TYPE, 'a file\'s name in quotes, as in include "lens.bin"'))
        try:
            with open(self.folder / name, "rb") as file:
                data = file.read(MOST_BYTES + 1)
        except (OSError, ValueError) as why:
            self.wrong("expected a file that can be read, found %s: %s" % (name, getattr(why, "strerror", why)), at)
        if not 1 <= len(data) <= MOST_BYTES:
            self.wrong("expected a file of 1 to %d bytes, found %s with %s" % (MOST_BYTES, name, "more" if data else "none"), at)
        return data

    def sized_bytes(self):
        found = self.look(CONSTANT_NUMBER)
        if not found or not found[3]:
            self.fail('a byte of two hexadecimal digits such as 0a, a number with its width such as 10i16, or include "FILE"')
        value, bits, at = self.sized()
        if not -2 ** (bits - 1) <= value < 2 ** bits:
            self.wrong("expected a number that fits in %d bits, found %d" % (bits, value), at)
        return (value % 2 ** bits).to_bytes(bits // 8, "little")

    def check_regions(self, w, places):
        free = 0
        for address, data, at in sorted((address, data, at) for (address, data), at in zip(w.regions, places)):
            if address < free:
                self.wrong("expected bytes that no others overlap, found 0x%x again" % address, at)
            free = address + len(data)
            if free > 2 ** 64:
                self.wrong("expected bytes that end by 2^64", at)

    def call(self):
        self.call_places.append(self.at)
        self.word("call")
        start = self.at
        self.mark("(")
        arguments = self.items(self.argument, r"\)")
        if len(arguments) > MOST_ARGUMENTS:
            self.wrong("expected at most %d arguments, found %d" % (MOST_ARGUMENTS, len(arguments)), start)
        steps = self.number("a number of steps", MOST_STEPS) if self.word("steps") else STEPS
        depth = self.number("a depth", MOST_DEPTH) if self.word("depth") else DEPTH
        self.mark(";")
        return Call(steps, depth, arguments)

    def argument(self):
        self.call_places.append(self.at)
        return self.signed("a number", -2 ** 63, LAST64) % 2 ** 64


# ---- what is made, and is likely to be a slip

def name_slip(name, kind, known):
    """What is told of a variable that is not known."""
    lead = "'%s' is no parameter, local or symbol: " % name
    if name in NAMES_INSTEAD:
        return lead + NAMES_INSTEAD[name]
    if kind == CALL and name.startswith("__"):
        return lead + "an intrinsic is written intrinsic %s(..)" % name
    if kind == CALL:
        return lead + "a function is called by its address, as in %s@0x7000(..)" % name
    if kind == CAST:
        return lead + "it is no cast, and unknown until it is assigned" + CAST_INSTEAD % name
    return lead + ("its address is unknown" if kind == ADDRESS else "it is unknown until it is assigned") + close_to(name, known)


def name_slips(scanner, routine, world):
    """The variables that nothing tells, each at its first place."""
    symbols = {name for name, _, _ in world.symbols}
    known, told = symbols | {name for _, name in routine.params + routine.locals}, set()
    for at, (name, kind) in sorted(scanner.uses.items()):
        if name not in known and name not in told:
            told.add(name)
            yield at, name_slip(name, kind, known)


def base_of(kind):
    """A type's words without `const`, `volatile`, `signed` and `unsigned`, and the sign that they tell."""
    words = [word for word in kind.split() if word not in ("const", "volatile")]
    return " ".join(word for word in words if word not in ("signed", "unsigned")), "unsigned" if "unsigned" in words else "signed"


def is_no_slip(base):
    """Whether a type that a run takes as 64 bits is so in C, or is of no number."""
    words = set(base.split())
    return "*" in base or base == "void" or base.startswith(("struct ", "union ")) or words == {"int", "long"}


def type_hint(base):
    """What to write instead of a type whose width is not known."""
    words, bits = set(base.split()), re.search(r"(?<![0-9])(8|16|32|64)(?![0-9])", base)
    if words & {"float", "double"}:
        return " (there are no numbers with a point)"
    if words & {"auto", "extern", "inline", "static"}:
        return " (leave out %s)" % ", ".join(sorted(words & {"auto", "extern", "inline", "static"}))
    if words == {"int", "short"}:
        return " (for 16 bits write short)"
    if bits:
        return " (for %s bits write uint%s_t or int%s_t)" % (bits[1], bits[1], bits[1])
    if base in ("uchar", "ushort", "uint", "ulong"):
        return " (is 'unsigned %s' meant?)" % base[1:]
    return "" if re.search("[0-9]", base) else close_to(base, KNOWN_TYPES)


def loaded_types(routine):
    """The types without quotes that loads and stores through a pointer have, with the casts' places. A struct's store takes no width there."""
    nodes = list(routine.nodes())
    of_structs = {id(n.kids[0]) for n in nodes if n.kind == ASSIGN and n.kids[1].kind == STRUCT}
    casts = [n.kids[0] for n in nodes if n.kind == DEREF and id(n) not in of_structs and n.kids[0].kind == CAST]
    return [(n.at, n.ref[:-1]) for n in casts if n.at is not None and n.ref.endswith("*")]


def type_slips(scanner, routine):
    """The types whose width a run does not know, each at its first place."""
    told = set()
    for at, kind in sorted(scanner.bare + loaded_types(routine)):
        base, sign = base_of(kind)
        if base not in KNOWN_TYPES and base not in told and not is_no_slip(base):
            told.add(base)
            yield at, "the width of '%s' is not known: it is taken as 64 bits %s%s" % (base, sign, type_hint(base))


def counted(number, what):
    return "%d %s%s" % (number, what, "" if number == 1 else "s")


def argument_slips(scanner, routine, call):
    """Arguments that no parameter takes, or parameters without one."""
    arguments, names = len(call.arguments), ["'%s'" % name for _, name in routine.params]
    lead = counted(arguments, "argument") + " for " + counted(len(names), "parameter")
    if arguments > len(names):
        yield scanner.call_places[1 + len(names)], lead + ": from here on they are not used"
    elif arguments < len(names):
        lead = lead if scanner.call_places else "there is no call(..)"
        missing = names[arguments:]
        yield (scanner.call_places + scanner.places)[0], "%s: %s %s unknown" % (lead, ", ".join(missing), "is" if len(missing) == 1 else "are")


def slips(scanner, routine, world, call):
    """What is likely to be a slip in a text, in its order, with line and column."""
    found = sorted([*name_slips(scanner, routine, world), *type_slips(scanner, routine), *argument_slips(scanner, routine, call)])
    return [scanner.told(at, "warning: " + message) for at, message in found]


# ---- the two commands

def make_and_warn(source, folder="."):
    """The three files of a text, and its warnings. What it includes is told relative to a folder."""
    scanner = FormScanner(source, folder)
    try:
        routine, world, call = scanner.form()
    except RecursionError:
        scanner.wrong("expected less nesting: at most %d nodes from parent to child" % MOST_CHAIN)
    return (routine_file(routine), world_file(world), call_file(call)), slips(scanner, routine, world, call)


def make(source, folder="."):
    """The three files of a text."""
    return make_and_warn(source, folder)[0]


def show(files):
    """The text of three files."""
    routine, world, call = RoutineReader(files[0]).read(), read_world(files[1]), read_call(files[2])
    text = "\n".join(RoutineText(routine).text() + [""] + world_text(world) + [""] + call_text(call)) + "\n"
    assert make(text) == tuple(files), "the text does not make the files again"
    return text


def make_command(text, folder, strict):
    files, warnings = make_and_warn(Path(text).read_text(encoding="utf-8-sig", errors="replace"), Path(text).parent)
    for warning in warnings:
        print("%s:%s" % (text, warning), file=sys.stderr)
    if strict and warnings:
        sys.exit("no files are made: --strict, and %s" % counted(len(warnings), "warning"))
    Path(folder).mkdir(parents=True, exist_ok=True)
    for name, data in zip(FILES, files):
        (Path(folder) / name).write_bytes(data)


def main(arguments):
    strict = arguments[:1] == ["make"] and "--strict" in arguments
    arguments = [word for word in arguments if not strict or word != "--strict"]
    command = arguments[0] if arguments else ""
    try:
        if command == "make" and len(arguments) == 3:
            make_command(arguments[1], arguments[2], strict)
        elif command == "show" and len(arguments) == 2:
            sys.stdout.write(show([(Path(arguments[1]) / name).read_bytes() for name in FILES]))
        else:
            sys.exit(__doc__.partition("\n\n")[2].partition("\n\n")[0])
    except Wrong as wrong:
        sys.exit("%s:%s" % (arguments[1], wrong))
    except (Refused, OSError) as why:
        sys.exit(str(why))


if __name__ == "__main__":
    main(sys.argv[1:])
