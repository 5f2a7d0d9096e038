#!/usr/bin/env python3
"""A second reading of document 01's "The files" and "From the input", with document 02's A1, and the cases that hold the checks to it. The papers
are not in the repository; docs/FILES.md says what is read here.

It was written from the papers alone. `refusal` and `constant_refusal` give the number by which files are refused, or 0, and the number of the
faulty node after 5, 30 and 31, else 0. The cases build each file from a description, damage it by the smallest change that breaks a sentence, and
stand beside the just accepted neighbour of the damage. Each case says its numbers too, so that a slip in this reading shows.

    tools/files_reference.py            write crates/files_cases/data/cases.bin and crates/files_cases/stdout
    tools/files_reference.py --list     print each case with its numbers

cases.bin: pages of 65,536 bytes, each of whole cases and then zeros. A case is its name (length u8, bytes), the expected number u8 and node u32,
then 0 and three files, or 1, the node of a `constant_value` u32 and one file. A file is a count u16 of pieces, and each piece is how often it
stands there u32, its length u32, its bytes. All numbers are little-endian.
"""
import struct
import sys
from pathlib import Path

PAGE = 65536
ACCEPTED = (0, 0)
ROOT = Path(__file__).resolve().parent.parent / "crates" / "files_cases"


# ---- the reading

def u(b, at, size):
    return int.from_bytes(b[at:at + size], "little")


def bodies(f, count):
    """The bodies, or None for a file whose table is wrong."""
    if len(f) > 65535 or len(f) < 2 + 4 * count or u(f, 0, 2) != count:
        return None
    found, at = [], 2 + 4 * count
    for k in range(count):
        offset, size = u(f, 2 + 4 * k, 2), u(f, 4 + 4 * k, 2)
        if offset != at or at + size > len(f):
            return None
        found.append(f[at:at + size])
        at += size
    return found if at == len(f) else None


def texts(b, least, low):
    """The texts of a body of names or types, or None."""
    found, at = [], 0
    while at < len(b):
        size = b[at]
        text = b[at + 1:at + 1 + size]
        if len(text) < size or not least <= size <= 64 or any(x < low or x > 0x7e for x in text):
            return None
        found.append(text)
        at += 1 + size
    return found if len(found) <= 512 else None


def names_of(b):
    found = texts(b, 1, 0x21)
    if found is None or any(p >= q for p, q in zip(found, found[1:])):
        return None
    return found


def types_of(b):
    return texts(b, 0, 0x20)


def head_ok(b, names, types):
    if len(b) < 13 or (len(b) - 13) % 4:
        return False
    variables = [(u(b, at, 2), u(b, at + 2, 2)) for at in range(13, len(b), 4)]
    return (u(b, 0, 2) < names and u(b, 10, 2) < types and b[12] <= 16 and b[12] <= len(variables)
            and all(n < names and t < types for n, t in variables))


class Node:
    def __init__(self, b, k):
        self.kind, self.flag, self.ref, self.width, self.span, self.value = struct.unpack_from("<BBHIIQ", b, 20 * k)


# the fields that a kind uses; a kind that is not here uses none of the four
USED = {0: ("width", "value"), 1: ("ref",), 2: ("flag", "ref", "width", "value"), 4: ("ref", "value"), 7: ("flag",), 8: ("ref",), 12: ("flag",),
        15: ("ref",), 18: ("ref", "value")}


def known(n):
    """Else 5."""
    return n.kind <= 19


def allowed(n, names, types):
    """The width, the flag and the reference of the kinds that bar some. Else 30."""
    flags = {7: 1, 12: 17}
    refs = {1: names, 4: names, 15: names, 8: types, 18: types}
    return (n.kind != 0 or 1 <= n.width <= 8) and n.flag <= flags.get(n.kind, n.flag) and n.ref < refs.get(n.kind, n.ref + 1)


def unused_are_0(n):
    """Else 31."""
    return all(getattr(n, field) == 0 for field in ("flag", "ref", "width", "value") if field not in USED.get(n.kind, ()))


def node_number(n, names, types):
    if not known(n):
        return 5
    if not allowed(n, names, types):
        return 30
    return 0 if unused_are_0(n) else 31


def nodes_refusal(nodes, names, types):
    """The lowest faulty node decides."""
    for k, n in enumerate(nodes):
        number = node_number(n, names, types)
        if number:
            return number, k
    return ACCEPTED


def children(kind):
    """How many children a kind has: the least and the most."""
    if kind <= 7 or kind == 19:
        return 0, 0
    if kind in (8, 9, 10, 18):
        return 1, 1
    return {11: (3, 3), 12: (2, 2), 13: (2, 2), 14: (1, 17), 15: (0, 65535), 16: (0, 1), 17: (0, 65535)}[kind]


def tree_end(nodes, k, end, parent, chain):
    """The node after the tree at k, which must end by `end`; None where the tree is not as it must be. `chain` nodes lead to it, itself included."""
    n = nodes[k]
    if chain > 64 or n.span < 1 or k + n.span > end or (n.kind == 18) != (parent == 17):
        return None
    stop, at, count = k + n.span, k + 1, 0
    while at < stop:
        at = tree_end(nodes, at, stop, n.kind, chain + 1)
        if at is None:
            return None
        count += 1
    least, most = children(n.kind)
    return stop if least <= count <= most else None


def trees_ok(b, nodes):
    if len(b) % 20:
        return False
    at = 0
    while at is not None and at < len(nodes):
        at = tree_end(nodes, at, len(nodes), None, 1)
    return at is not None


def address_ok(flag, address):
    return flag == 1 or flag == 0 and address == 0


def is_root(nodes, k):
    return k < len(nodes) and nodes[k].kind != 18


def statements_ok(b, nodes):
    if len(b) % 13:
        return False
    return all(address_ok(b[at], u(b, at + 1, 8)) and is_root(nodes, u(b, at + 9, 4)) for at in range(0, len(b), 13))


def blocks_ok(b, nodes, statements):
    at = 0
    while at < len(b):
        if at + 24 > len(b):
            return False
        count, kind, flag, address, root, taken, following = struct.unpack_from("<HBBQIII", b, at)
        at += 24
        statements -= count
        if kind == 0:
            good = (flag, address, root, taken, following) == (0, 0, 0, 0, 0)
        elif kind == 1:
            good = (flag, address, root, following) == (0, 0, 0, 0)
        elif kind == 2:
            good = address_ok(flag, address) and is_root(nodes, root)
        else:
            good = kind == 3 and address_ok(flag, address) and is_root(nodes, root) and following == 0
            at += 12 * taken
        if not good or statements < 0 or at > len(b):
            return False
    return statements == 0


def routine_refusal(f):
    parts = bodies(f, 6)
    if parts is None:
        return 1, 0
    names, types = names_of(parts[0]), types_of(parts[1])
    if names is None:
        return 2, 0
    if types is None:
        return 3, 0
    if not head_ok(parts[2], len(names), len(types)):
        return 4, 0
    nodes = [Node(parts[3], k) for k in range(len(parts[3]) // 20)]
    found = nodes_refusal(nodes, len(names), len(types))
    if found != ACCEPTED:
        return found
    if not trees_ok(parts[3], nodes):
        return 6, 0
    if not statements_ok(parts[4], nodes) or not blocks_ok(parts[5], nodes, len(parts[4]) // 13):
        return 7, 0
    return ACCEPTED


def symbols_ok(b, names):
    if len(b) % 11:
        return False
    found = [u(b, at, 2) for at in range(0, len(b), 11)]
    return all(n < names for n in found) and all(p < q for p, q in zip(found, found[1:]))


def regions_ok(b):
    at, free = 0, 0
    while at < len(b):
        if at + 12 > len(b):
            return False
        address, size = u(b, at, 8), u(b, at + 8, 4)
        at += 12 + size
        if size < 1 or at > len(b) or address < free or address + size > 2 ** 64:
            return False
        free = address + size
    return True


def world_ok(f):
    parts = bodies(f, 3)
    if parts is None:
        return False
    names = names_of(parts[0])
    return names is not None and symbols_ok(parts[1], len(names)) and regions_ok(parts[2])


def call_ok(f):
    parts = bodies(f, 1)
    if parts is None:
        return False
    b = parts[0]
    return len(b) in range(8, 137, 8) and u(b, 0, 4) <= 1000000 and u(b, 4, 4) <= 255


def refusal(routine, world, call):
    found = routine_refusal(routine)
    if found != ACCEPTED:
        return found
    if not world_ok(world):
        return 8, 0
    return ACCEPTED if call_ok(call) else (9, 0)


def constant_refusal(routine, node):
    found = routine_refusal(routine)
    if found != ACCEPTED:
        return found
    b = bodies(routine, 6)[3]
    return ACCEPTED if is_root([Node(b, k) for k in range(len(b) // 20)], node) else (9, 0)


# ---- descriptions of files

def file_of(parts, count=None):
    count = len(parts) if count is None else count
    table, at = struct.pack("<H", count), 2 + 4 * len(parts)
    for b in parts:
        table += struct.pack("<HH", at & 0xffff, len(b) & 0xffff)
        at += len(b)
    return table + b"".join(parts)


def text(s):
    s = s.encode("latin-1") if isinstance(s, str) else s
    return bytes([len(s)]) + s


def listed(items):
    return b"".join(text(s) for s in items)


CONSTANT, VAR, REGISTER, STRING, FUNCTION, TRUE, FALSE, DECIDED, CAST, DEREF = range(10)
ADDRESS, TERNARY, BINARY, ASSIGN, CALL, INTRINSIC, RETURN, STRUCT, FIELD, PLAIN = range(10, 20)


def tree(kind, *kids, flag=0, ref=0, width=None, value=0, span=None):
    """The nodes of a tree, children after their parent; `span` only where it is to be a wrong one."""
    under = b"".join(kids)
    width = (1 if kind == CONSTANT else 0) if width is None else width
    return struct.pack("<BBHIIQ", kind, flag, ref, width, 1 + len(under) // 20 if span is None else span, value) + under


def statement(root, flag=0, address=0):
    return struct.pack("<BQI", flag, address, root)


def block(count, kind=0, flag=0, address=0, root=0, taken=0, following=0, cases=()):
    return struct.pack("<HBBQIII", count, kind, flag, address, root, taken, following) + b"".join(struct.pack("<QI", v, t) for v, t in cases)


def head(name=0, address=0x1000, kind=0, parameters=1, variables=((0, 1), (1, 2)), tail=b""):
    return struct.pack("<HQHB", name, address, kind, parameters) + b"".join(struct.pack("<HH", n, t) for n, t in variables) + tail


NAMES = ["dwell", "sum", "trim"]
TYPES = ["int32_t", "uint8_t", "int8_t"]
ONE = tree(CONSTANT)
X = tree(VAR)

# a tree of each kind that a statement may have at its root, and the same with the fewest and the most children
KINDS = {
    CONSTANT: ONE, VAR: X, REGISTER: tree(REGISTER), STRING: tree(STRING), FUNCTION: tree(FUNCTION), TRUE: tree(TRUE), FALSE: tree(FALSE),
    DECIDED: tree(DECIDED), CAST: tree(CAST, X), DEREF: tree(DEREF, X), ADDRESS: tree(ADDRESS, X), TERNARY: tree(TERNARY, tree(TRUE), X, ONE),
    BINARY: tree(BINARY, X, ONE), ASSIGN: tree(ASSIGN, X, ONE), CALL: tree(CALL, tree(FUNCTION), X), INTRINSIC: tree(INTRINSIC, X, ONE),
    RETURN: tree(RETURN, X), STRUCT: tree(STRUCT, tree(FIELD, ONE), tree(FIELD, X, value=4)), PLAIN: tree(PLAIN),
}
NODES = b"".join(KINDS[k] for k in sorted(KINDS))
ROOTS = []
for kind in sorted(KINDS):
    ROOTS.append(sum(len(KINDS[k]) // 20 for k in KINDS if k < kind))
COUNT = len(NODES) // 20
FIELD_NODE = ROOTS[sorted(KINDS).index(STRUCT)] + 1
STATEMENTS = b"".join(statement(r) for r in ROOTS[:4]) + statement(ROOTS[4], 1, 0x1004)
BLOCKS = (block(2, 1, taken=1) + block(0, 2, 1, 0x1008, ROOTS[5], 2, 7) + block(3, 3, 0, 0, ROOTS[1], 2, 0, [(1, 0), (2 ** 64 - 1, 3)])
          + block(0))


def routine(names=None, types=None, top=None, nodes=NODES, statements=STATEMENTS, blocks=BLOCKS):
    names = listed(NAMES if names is None else names) if not isinstance(names, bytes) else names
    types = listed(TYPES if types is None else types) if not isinstance(types, bytes) else types
    return file_of([names, types, head() if top is None else top, nodes, statements, blocks])


def only(nodes, names=None, types=None):
    """A routine whose one statement has the tree at node 0."""
    return routine(names, types, nodes=nodes, statements=statement(0), blocks=block(1))


def symbol(name, size=0, address=0):
    return struct.pack("<HBQ", name, size, address)


def region(address, data, size=None):
    return struct.pack("<QI", address, len(data) if size is None else size) + data


WORLD_NAMES = ["alpha", "dwell", "omega"]


def world(names=None, symbols=symbol(0, 4, 0x2000) + symbol(2, 0, 7), regions=region(0x1000, b"abc") + region(0x1003, b"d")):
    names = listed(WORLD_NAMES if names is None else names) if not isinstance(names, bytes) else names
    return file_of([names, symbols, regions])


def call_body(steps=10, depth=8, arguments=(100,)):
    return struct.pack("<II", steps, depth) + b"".join(struct.pack("<Q", a) for a in arguments)


def call(**k):
    return file_of([call_body(**k)])


def patched(f, at, data):
    return f[:at] + data + f[at + len(data):]


def gapped(f, count, body):
    """The file with a byte that no body has before a body."""
    at = u(f, 2 + 4 * body, 2)
    f = f[:at] + b"\0" + f[at:]
    for k in range(body, count):
        f = patched(f, 2 + 4 * k, struct.pack("<H", u(f, 2 + 4 * k, 2) + 1))
    return f


def many(count, size=3):
    """So many names, ascending."""
    return ["%0*d" % (size, k) for k in range(count)]


# ---- the cases

CASES = []


def run(name, number, r=None, w=None, c=None, node=0):
    files = [routine() if r is None else r, world() if w is None else w, call() if c is None else c]
    CASES.append((name, (number, node), None, files))


def constant(name, number, asked, r=None, node=0):
    CASES.append((name, (number, node), asked, [routine() if r is None else r]))


def small(name, number, nodes, node=0, names=None, types=None):
    """A case of its nodes, in as few bytes as it can have."""
    run(name, number, only(nodes, names, types), file_of([b""] * 3), call(arguments=()), node)


# how many children a kind must have
FEWEST = {CAST: 1, DEREF: 1, ADDRESS: 1, TERNARY: 3, BINARY: 2, ASSIGN: 2, CALL: 1, FIELD: 1}


def one(name, number, kind, names=None, types=None, **k):
    """A case of one node in question, with what must be under it and over it."""
    nodes, node = tree(kind, *[X] * FEWEST.get(kind, 0), **k), 0
    if kind == FIELD:
        nodes, node = tree(STRUCT, nodes), 1
    small(name, number, nodes, node if number else 0, names, types)


# a node for each number that tells one
FAULTY = {5: tree(20), 30: tree(CONSTANT, width=9), 31: tree(PLAIN, value=1)}


def tables():
    base = {"routine": (routine(), 6, 1), "world": (world(), 3, 8), "call": (call(), 1, 9)}
    for which, (f, count, number) in base.items():
        def case(name, data, expected=number):
            run(which + ": " + name, expected, **{which[0]: data})
        start = 2 + 4 * count
        case("accepted", f, 0)
        case("no byte", b"")
        case("one byte", f[:1])
        case("table cut", f[:start - 1])
        case("one body more told", patched(f, 0, struct.pack("<H", count + 1)))
        case("one body fewer told", patched(f, 0, struct.pack("<H", count - 1)))
        case("count with high byte", patched(f, 1, b"\1"))
        case("a byte after the last body", f + b"\0")
        case("a byte lacks", f[:-1])
        for k in range(count):
            case("a gap before body %d" % k, gapped(f, count, k))
        case("first offset one less", patched(f, 2, struct.pack("<H", start - 1)))
        case("first offset one more", patched(f, 2, struct.pack("<H", start + 1)))
        case("last length one less", patched(f, start - 2, struct.pack("<H", u(f, start - 2, 2) - 1)))
        case("last length one more", patched(f, start - 2, struct.pack("<H", u(f, start - 2, 2) + 1)))
        for k in range(1, count):
            at = 2 + 4 * k
            case("offset %d one more" % k, patched(f, at, struct.pack("<H", u(f, at, 2) + 1)))
            case("length %d one more" % (k - 1), patched(f, at - 2, struct.pack("<H", u(f, at - 2, 2) + 1)))
        case("65,535 bytes that are no file", b"\0" * 65535)
        case("65,536 bytes that are no file", b"\0" * 65536)
    w = world()
    run("world: two bodies swapped in the table", 8, w=patched(w, 2, w[6:10] + w[2:6]))


def longest(total):
    """A routine of so many bytes: plain nodes, and names that fill up."""
    fixed = len(routine(nodes=b"", statements=b"", blocks=block(0)))
    plain = (total - fixed - 40) // 20
    rest = total - fixed - 20 * plain
    filler = "zz" + "z" * (rest - 3)
    f = routine(NAMES + [filler], nodes=tree(PLAIN) * plain, statements=b"", blocks=block(0))
    assert len(f) == total, (len(f), total)
    return f


def limits_of_files():
    run("routine of 65,535 bytes", 0, longest(65535))
    run("routine of 65,536 bytes", 1, longest(65536))
    room = 65535 - len(world(regions=region(1, b"")))
    run("world of 65,535 bytes", 0, w=world(regions=region(1, b"\0" * room)))
    run("world of 65,536 bytes", 8, w=world(regions=region(1, b"\0" * (room + 1))))
    run("world of 65,535 bytes in two regions", 0, w=world(regions=region(1, b"\0" * (room - 20)) + region(2 ** 63, b"\1" * 8)))


def names():
    for who, number, make in (("routine", 2, lambda n: {"r": routine(n)}), ("world", 8, lambda n: {"w": world(n, symbols=b"")})):
        def case(name, items, expected=number):
            run("%s names: %s" % (who, name), expected, **make(items))
        case("three", ["a", "b", "c"], 0)
        case("512", many(512), 0)
        case("513", many(513))
        case("length 0 first", ["", "b", "c"])
        case("length 0 last", listed(["a", "b", "c"]) + b"\0")
        case("length 64", ["a", "b", "c" * 64], 0)
        case("length 65", ["a", "b", "c" * 65])
        case("length 255", ["a", "b", "c" * 255])
        case("byte 0x21", ["!", "b", "c"], 0)
        case("byte 0x20", [" ", "b", "c"])
        case("byte 0x7e", ["a", "b", "~"], 0)
        case("byte 0x7f", ["a", "b", "\x7f"])
        case("byte 0x20 inside", ["a", "b b", "c"])
        case("byte 0xff", ["a", "b", "\xff"])
        case("byte 0", ["a", "b", "c\0"])
        case("twice the same", ["a", "b", "b"])
        case("descending", ["a", "c", "b"])
        case("descending at the last byte", ["aab", "aaa", "c"])
        case("descending at the first byte only", ["ba", "ab", "c"])
        case("one before a longer one that it begins", ["a", "ab", "b"], 0)
        case("one after a longer one that it begins", ["ab", "a", "b"])
        case("longer but less", ["aaa", "b", "c"], 0)
        case("capital before small", ["B", "a", "c"], 0)
        case("small before capital", ["a", "B", "c"])
        case("the last one's bytes cut", listed(["a", "b", "cc"])[:-1])
        case("a length byte alone at the end", listed(["a", "b", "c"]) + b"\1")
    run("routine names: none, so the head has none", 4, routine([]))
    run("world names: none", 0, w=world([], symbols=b""))


def types():
    def case(name, items, expected=3):
        run("types: " + name, expected, routine(types=items))
    case("three", ["int", "", "long long"], 0)
    case("512", ["t"] * 512, 0)
    case("513", ["t"] * 513)
    case("512 of no byte", b"\0" * 512, 0)
    case("513 of no byte", b"\0" * 513)
    case("length 64", ["t" * 64, "", ""], 0)
    case("length 65", ["t" * 65, "", ""])
    case("length 255", ["t" * 255, "", ""])
    case("byte 0x20", [" ", "a", "b"], 0)
    case("byte 0x1f", ["\x1f", "a", "b"])
    case("byte 0x7e", ["~", "a", "b"], 0)
    case("byte 0x7f", ["a", "b", "\x7f"])
    case("twice the same", ["a", "a", "a"], 0)
    case("descending", ["c", "b", "a"], 0)
    case("the last one's bytes cut", listed(["a", "b", "cc"])[:-1])
    run("types: none, so the head has none", 4, routine(types=[]))


def heads():
    def case(name, top, expected=4):
        run("head: " + name, expected, routine(top=top))
    case("no variable", head(parameters=0, variables=()), 0)
    case("12 bytes", head(parameters=0, variables=())[:12])
    case("no byte", b"")
    for k in (1, 2, 3):
        case("%d bytes after the variables" % k, head(tail=b"\0" * k))
    case("the last name", head(name=2), 0)
    case("a name past the last", head(name=3))
    case("the last type", head(kind=2), 0)
    case("a type past the last", head(kind=3))
    run("head: the last of 512 names", 0, routine(many(512), top=head(name=511)))
    run("head: a name past the last of 512", 4, routine(many(512), top=head(name=512)))
    run("head: the last of 512 types", 0, routine(types=["t"] * 512, top=head(kind=511)))
    run("head: a type past the last of 512", 4, routine(types=["t"] * 512, top=head(kind=512)))
    case("any address", head(address=2 ** 64 - 1), 0)
    case("16 parameters", head(parameters=16, variables=[(0, 0)] * 16), 0)
    case("17 parameters", head(parameters=17, variables=[(0, 0)] * 17))
    case("255 parameters", head(parameters=255, variables=[(0, 0)] * 255))
    case("17 locals", head(parameters=0, variables=[(0, 0)] * 17), 0)
    case("all of them parameters", head(parameters=2), 0)
    case("more parameters than variables", head(parameters=3))
    case("a variable's last name", head(variables=((2, 0),)), 0)
    case("a variable's name past the last", head(variables=((3, 0),)))
    case("a variable's last type", head(variables=((0, 2),)), 0)
    case("a variable's type past the last", head(variables=((0, 3),)))
    case("a local's name past the last", head(variables=((0, 0), (3, 0))))
    case("a local's type past the last", head(variables=((0, 0), (0, 3))))
    case("a name twice", head(variables=((0, 0), (0, 1))), 0)


def fields():
    most = {
        "flag": ({REGISTER: 255, DECIDED: 1, BINARY: 17}, 255),
        "ref": ({VAR: 2, FUNCTION: 2, INTRINSIC: 2, CAST: 2, FIELD: 2, REGISTER: 65535}, 65535),
        "width": ({CONSTANT: 8, REGISTER: 2 ** 32 - 1}, 2 ** 32 - 1),
        "value": ({k: 2 ** 64 - 1 for k in (CONSTANT, REGISTER, FUNCTION, FIELD)}, 2 ** 64 - 1),
    }
    for kind in range(20):
        for field, (limits, top) in most.items():
            limit, number = limits.get(kind, 0), 30 if kind in limits else 31
            one("kind %d: %s %d" % (kind, field, limit), 0, kind, **{field: limit})
            # one more, all bits, and the high bit alone
            for value in sorted({limit + 1, top, (top + 1) // 2}):
                if limit < value <= top:
                    one("kind %d: %s %d" % (kind, field, value), number, kind, **{field: value})
    small("a Constant of width 0", 30, tree(CONSTANT, width=0))
    small("a Constant of width 1", 0, tree(CONSTANT, width=1, value=2 ** 64 - 1))
    for width in (256, 257, 2 ** 31 + 8):
        small("a Constant of width %d" % width, 30, tree(CONSTANT, width=width))
    small("kind 19", 0, tree(19))
    for kind in (20, 21, 31, 32, 39, 64, 128, 255):
        small("kind %d" % kind, 5, tree(kind))


def references():
    """A reference is below its own table's count, whatever the other's is."""
    for kind in (VAR, FUNCTION, INTRINSIC, CAST, FIELD):
        for ref, count, number in ((3, 4, 0), (4, 4, 30), (256, 3, 30), (511, 512, 0), (512, 512, 30)):
            table = dict(types=["t"] * count) if kind in (CAST, FIELD) else dict(names=many(count))
            one("kind %d: ref %d of %d" % (kind, ref, count), number, kind, **table, ref=ref)


# what a kind bars, and the fields that it does not use
BARRED = ((CONSTANT, "width", 0, "flag ref"), (CONSTANT, "width", 9, "flag ref"), (VAR, "ref", 3, "flag width value"),
          (FUNCTION, "ref", 3, "flag width"), (DECIDED, "flag", 2, "ref width value"), (CAST, "ref", 3, "flag width value"),
          (BINARY, "flag", 18, "ref width value"), (INTRINSIC, "ref", 3, "flag width value"), (FIELD, "ref", 3, "flag width"))


def one_node():
    """On one node 5 goes before 30, and 30 before 31."""
    def case(number, kind, **k):
        one("kind %d with %s" % (kind, ", ".join("%s %d" % field for field in k.items())), number, kind, **k)
    for kind, field, barred, unused in BARRED:
        for other in unused.split():
            case(30, kind, **{field: barred, other: 1})
        ones = dict.fromkeys(unused.split(), 1)
        case(30, kind, **{field: barred}, **ones)
        if barred:
            case(31, kind, **{field: barred - 1}, **ones)
        # unknown kinds that a slip takes for this one
        case(5, kind + 32, **{field: barred})
        case(5, kind + 128, **{field: barred}, **ones)
    for field in ("flag", "ref", "width", "value"):
        case(5, 20, **{field: 1})
        case(5, 255, **{field: 1})
    case(5, 20, flag=255, ref=65535, width=2 ** 32 - 1, value=2 ** 64 - 1)


def two_nodes():
    """Of two faulty nodes the lower one decides, whichever number it has."""
    for low, first in FAULTY.items():
        small("%d at the second node" % low, low, X + first, 1)
        small("%d under a Cast" % low, low, tree(CAST, first), 1)
        for high, second in FAULTY.items():
            small("%d, then %d" % (low, high), low, first + second)
            small("%d, then %d, under a good node" % (low, high), low, tree(TERNARY, X, first, second), 2)
            small("%d, then %d after good ones" % (low, high), low, X + first + ONE * 20 + second, 1)
    for high, second in FAULTY.items():
        small("30 over %d" % high, 30, tree(CAST, second, ref=3))
        small("31 over %d" % high, 31, tree(DEREF, second, flag=1))
        small("5 over %d" % high, 5, tree(20, second))


def far_nodes():
    """A node's number has more than one byte."""
    most = (65535 - len(only(b""))) // 20
    for number, bad in FAULTY.items():
        for node in (255, 256, 2048, most - 1):
            small("%d at node %d" % (number, node), number, X * node + bad, node)
        small("%d at node 300, and others after it" % number, number, X * 300 + bad + b"".join(FAULTY.values()), 300)


def beside_trees():
    """Every node is looked at before any tree is."""
    wrong = {"a missing child": tree(CAST), "span 0": tree(VAR, span=0), "a span past the end": tree(INTRINSIC, span=2 ** 32 - 1),
             "a field at the top": tree(FIELD, X), "a Var under a StructInit": tree(STRUCT, X), "65 nodes deep": chain(65)}
    for number, bad in FAULTY.items():
        for name, nodes in wrong.items():
            small("%d before %s" % (number, name), number, bad + nodes)
            small("%d after %s" % (number, name), number, nodes + bad, len(nodes) // 20)
        small("%d under 64 nodes" % number, number, chain(65, bad), 64)
    for span in (0, 2, 2 ** 32 - 1):
        small("5 with span %d" % span, 5, tree(20, span=span))
        small("30 with span %d" % span, 30, tree(CONSTANT, width=0, span=span))
        small("31 with span %d" % span, 31, tree(PLAIN, ref=1, span=span))


def beside_a_part():
    """Of a body that ends within a node, the whole nodes are looked at first, and only they."""
    for number, bad in FAULTY.items():
        for size in (1, 19):
            small("%d before a part of %d bytes" % (number, size), number, bad + X[:size])
            small("%d at the second node, before a part of %d bytes" % (number, size), number, X + bad + b"\xff" * size, 1)
            small("a part of %d bytes of a node that would be %d" % (size, number), 6, X + bad[:size])
            small("nothing but a part of %d bytes of a node that would be %d" % (size, number), 6, bad[:size])


def child_counts():
    ranges = {k: (0, 0) for k in (0, 1, 2, 3, 4, 5, 6, 7, 19)}
    ranges.update({CAST: (1, 1), DEREF: (1, 1), ADDRESS: (1, 1), TERNARY: (3, 3), BINARY: (2, 2), ASSIGN: (2, 2), CALL: (1, 17),
                   INTRINSIC: (0, None), RETURN: (0, 1), STRUCT: (0, None), FIELD: (1, 1)})
    for kind, (least, most) in ranges.items():
        kid = tree(FIELD, X) if kind == STRUCT else X

        def nodes(count):
            t = tree(kind, *[kid] * count)
            return only(tree(STRUCT, t) if kind == FIELD else t)
        if least:
            run("kind %d: %d children" % (kind, least - 1), 6, nodes(least - 1))
        run("kind %d: %d children" % (kind, least), 0, nodes(least))
        if most is None:
            run("kind %d: 100 children" % kind, 0, nodes(100))
        else:
            run("kind %d: %d children" % (kind, most), 0, nodes(most))
            run("kind %d: %d children" % (kind, most + 1), 6, nodes(most + 1))


def chain(depth, t=X):
    """So many nodes, one under the other; the last is given."""
    for _ in range(depth - 1):
        t = tree(CAST, t)
    return t


def chains():
    run("64 nodes deep", 0, only(chain(64)))
    run("65 nodes deep", 6, only(chain(65)))
    run("64 nodes deep beside others", 0, only(X + chain(64) + X))
    run("65 nodes deep in a tree that no root names", 6, only(X + chain(65)))
    run("64 nodes deep at the second child", 0, only(tree(BINARY, X, chain(63))))
    run("65 nodes deep at the second child", 6, only(tree(BINARY, X, chain(64))))
    run("64 nodes deep with a field", 0, only(tree(STRUCT, tree(FIELD, chain(62)))))
    run("65 nodes deep with a field", 6, only(tree(STRUCT, tree(FIELD, chain(63)))))
    run("200 nodes side by side", 0, only(X * 200))


def spans():
    run("span 0", 6, only(tree(VAR, span=0)))
    run("span 0 in the last node", 6, only(X + tree(VAR, span=0)))
    run("a leaf's span past the end", 6, only(tree(VAR, span=2)))
    run("a span past the end", 6, only(tree(CAST, X, span=3)))
    run("a span of 2^32 - 1", 6, only(tree(CAST, X, span=2 ** 32 - 1)))
    run("a child's span past its parent's", 6, only(tree(CAST, tree(CAST, X, span=3)) + X))
    run("a child's span one past its parent's, which takes any number", 6, only(tree(CAST, tree(INTRINSIC, span=2)) + X))
    run("a span that leaves a child out", 6, only(tree(BINARY, X, ONE, span=2)))
    run("a span that takes one more in", 6, only(tree(CAST, X, span=3) + X))
    run("a Return whose span takes one more in", 0, only(tree(RETURN, span=2) + X))
    run("two spans that fit", 0, only(tree(INTRINSIC, X, span=3) + X))


def field_places():
    run("a field under a StructInit", 0, only(tree(STRUCT, tree(FIELD, X))))
    run("a field at the top", 6, only(X + tree(FIELD, X)))
    run("a field under a Cast", 6, only(tree(CAST, tree(FIELD, X))))
    run("a field under a field", 6, only(tree(STRUCT, tree(FIELD, tree(FIELD, X)))))
    run("a field under a Return under a field", 6, only(tree(STRUCT, tree(FIELD, tree(RETURN, tree(FIELD, X))))))
    run("a Var under a StructInit", 6, only(tree(STRUCT, X)))
    run("a Var after a field under a StructInit", 6, only(tree(STRUCT, tree(FIELD, X), X)))
    run("a StructInit under a StructInit", 6, only(tree(STRUCT, tree(STRUCT))))
    run("a StructInit under a field", 0, only(tree(STRUCT, tree(FIELD, tree(STRUCT)))))
    run("a StructInit of no field", 0, only(tree(STRUCT)))


def node_bodies():
    run("19 bytes after the nodes", 6, only(X + b"\0" * 19))
    run("one byte after the nodes", 6, only(X + b"\0"))
    run("a body of 19 bytes", 6, only(b"\0" * 19))
    run("no node", 0, routine(nodes=b"", statements=b"", blocks=b""))
    run("no node, and a root", 7, routine(nodes=b"", statements=statement(0), blocks=block(1)))


def roots():
    def case(name, data, expected=7):
        run("statement: " + name, expected, routine(statements=data, blocks=block(len(data) // 13)))
    case("flag 0", statement(0), 0)
    case("flag 1", statement(0, 1, 5), 0)
    case("flag 1 and address 0", statement(0, 1, 0), 0)
    case("flag 1 and the last address", statement(0, 1, 2 ** 64 - 1), 0)
    case("flag 2", statement(0, 2, 5))
    case("flag 2 and address 0", statement(0, 2, 0))
    case("flag 255", statement(0, 255, 5))
    case("an address without its flag", statement(0, 0, 1))
    case("an address of high bytes without its flag", statement(0, 0, 2 ** 63))
    case("the last node as root", statement(COUNT - 1), 0)
    case("a root past the last node", statement(COUNT))
    case("a root of 2^32 - 1", statement(2 ** 32 - 1))
    case("a field as root", statement(FIELD_NODE))
    case("a node under another as root", statement(FIELD_NODE + 1), 0)
    case("a root twice", statement(0) * 2, 0)
    case("the second's root past the last node", statement(0) + statement(COUNT))
    for k in (1, 12):
        run("statement: %d bytes more" % k, 7, routine(statements=statement(0) + b"\0" * k, blocks=block(1)))


def blocks_of(name, data, expected=7, statements=b""):
    run("block: " + name, expected, routine(statements=statements, blocks=data))


def dealt():
    case = blocks_of
    two = statement(0) * 2
    case("none", b"", 0)
    case("none, with a statement", b"", 7, statement(0))
    case("of no statement", block(0), 0)
    case("two that take two", block(1) + block(1), 0, two)
    case("two in the first", block(2) + block(0), 0, two)
    case("one statement left", block(1), 7, two)
    case("all left", block(0), 7, two)
    case("one statement too many", block(3), 7, two)
    case("one too many in the second", block(1) + block(2), 7, two)
    case("65,535 statements told", block(65535), 7, two)
    case("23 bytes", block(0)[:23])
    case("a byte more", block(0) + b"\0")
    case("a second that is wrong", block(0) + block(0, 4))


def terminators():
    case = blocks_of
    case("terminator 4", block(0, 4))
    case("terminator 255", block(0, 255))
    case("a Return with a flag", block(0, 0, 1, 0))
    case("a Return with an address", block(0, 0, 0, 1))
    case("a Return with flag and address", block(0, 0, 1, 1))
    case("a Return with a root", block(0, 0, root=1))
    case("a Return with a target", block(0, 0, taken=1))
    case("a Return with a next", block(0, 0, following=1))
    case("a Goto", block(0, 1, taken=0), 0)
    case("a Goto to a missing block", block(0, 1, taken=2 ** 32 - 1), 0)
    case("a Goto with a flag", block(0, 1, 1, 0))
    case("a Goto with an address", block(0, 1, 0, 1))
    case("a Goto with a root", block(0, 1, root=1))
    case("a Goto with a next", block(0, 1, following=1))
    case("a Branch", block(0, 2, 0, 0, 0, 0, 0), 0)
    case("a Branch with address and targets", block(0, 2, 1, 9, 1, 2 ** 32 - 1, 2 ** 32 - 1), 0)
    case("a Branch with an address without its flag", block(0, 2, 0, 9))
    case("a Branch with flag 2", block(0, 2, 2, 9))
    case("a Branch at the last node", block(0, 2, root=COUNT - 1), 0)
    case("a Branch past the last node", block(0, 2, root=COUNT))
    case("a Branch at a field", block(0, 2, root=FIELD_NODE))


def switches():
    case = blocks_of
    case("a Switch of no case", block(0, 3), 0)
    case("a Switch of one case", block(0, 3, taken=1, cases=[(5, 6)]), 0)
    case("a Switch of two equal cases", block(0, 3, taken=2, cases=[(5, 6), (5, 7)]), 0)
    case("a Switch with an address", block(0, 3, 1, 9), 0)
    case("a Switch with an address without its flag", block(0, 3, 0, 9))
    case("a Switch with flag 2", block(0, 3, 2, 9))
    case("a Switch with a next", block(0, 3, following=1))
    case("a Switch at the last node", block(0, 3, root=COUNT - 1), 0)
    case("a Switch past the last node", block(0, 3, root=COUNT))
    case("a Switch at a field", block(0, 3, root=FIELD_NODE))
    case("a Switch of one case more than there are", block(0, 3, taken=2, cases=[(5, 6)]))
    case("a Switch of one case fewer than there are", block(0, 3, taken=0, cases=[(5, 6)]))
    case("a Switch whose last case is cut", block(0, 3, taken=1, cases=[(5, 6)])[:-1])
    case("a Switch of 2^32 - 1 cases", block(0, 3, taken=2 ** 32 - 1, cases=[(5, 6)]))
    case("a Switch whose cases would have 2^32 + 8 bytes, and has 8", block(0, 3, taken=(2 ** 32 + 8) // 12) + b"\0" * 8)
    case("a Switch, then a Return", block(0, 3, taken=1, cases=[(5, 6)]) + block(0), 0)


def worlds():
    def symbols(name, data, expected=8):
        run("symbols: " + name, expected, w=world(symbols=data))
    symbols("none", b"", 0)
    symbols("one", symbol(1), 0)
    symbols("all", symbol(0) + symbol(1) + symbol(2), 0)
    symbols("size 255 and the last address", symbol(2, 255, 2 ** 64 - 1), 0)
    symbols("a name past the last", symbol(3))
    symbols("a name past the last, second", symbol(0) + symbol(3))
    symbols("a name twice", symbol(1) + symbol(1))
    symbols("descending", symbol(2) + symbol(1))
    symbols("a byte more", symbol(1) + b"\0")
    symbols("10 bytes", symbol(1)[:10])
    run("symbols: 512", 0, w=world(many(512), b"".join(symbol(k) for k in range(512))))
    run("symbols: the last of 512 names", 0, w=world(many(512), symbol(511)))
    run("symbols: a name past the last of 512", 8, w=world(many(512), symbol(512)))

    def regions(name, data, expected=8):
        run("regions: " + name, expected, w=world(regions=data))
    regions("none", b"", 0)
    regions("one byte at 0", region(0, b"a"), 0)
    regions("of no byte", region(5, b""))
    regions("touching", region(5, b"ab") + region(7, b"c"), 0)
    regions("overlapping in one byte", region(5, b"ab") + region(6, b"c"))
    regions("at one address", region(5, b"a") + region(5, b"b"))
    regions("descending", region(9, b"a") + region(5, b"b"))
    regions("the first at 0, touching", region(0, b"a") + region(1, b"b"), 0)
    regions("the first at 0, twice", region(0, b"a") + region(0, b"b"))
    regions("inside another", region(5, b"abcd") + region(6, b"x"))
    regions("ending at 2^64", region(2 ** 64 - 2, b"ab"), 0)
    regions("ending past 2^64", region(2 ** 64 - 2, b"abc"))
    regions("the last address", region(2 ** 64 - 1, b"a"), 0)
    regions("past the last address", region(2 ** 64 - 1, b"ab"))
    regions("after one that ends at 2^64", region(2 ** 64 - 2, b"ab") + region(0, b"c"))
    regions("up to another that ends at 2^64", region(2 ** 64 - 3, b"a") + region(2 ** 64 - 2, b"bc"), 0)
    regions("11 bytes", region(5, b"a")[:11])
    regions("12 bytes, and no byte of its own", region(5, b"a")[:12])
    regions("a byte lacks", region(5, b"abc", 4))
    regions("a byte more", region(5, b"abc", 2))
    regions("a length of 2^32 - 1", region(5, b"abc", 2 ** 32 - 1))
    regions("a length of 2^32 - 12", region(5, b"", 2 ** 32 - 12))


def calls():
    def case(name, expected=9, **k):
        run("call: " + name, expected, c=call(**k))
    case("0 steps", 0, steps=0)
    case("1,000,000 steps", 0, steps=1000000)
    case("1,000,001 steps", steps=1000001)
    case("2^32 - 1 steps", steps=2 ** 32 - 1)
    case("depth 0", 0, depth=0)
    case("depth 255", 0, depth=255)
    case("depth 256", depth=256)
    case("depth 2^32 - 1", depth=2 ** 32 - 1)
    case("no argument", 0, arguments=())
    case("16 arguments", 0, arguments=[2 ** 64 - 1] * 16)
    case("17 arguments", arguments=[0] * 17)
    for size in (0, 4, 7, 9, 12, 15, 135, 137, 143):
        run("call: %d bytes" % size, 9, c=file_of([(call_body(arguments=[0] * 17))[:size]]))


def first_of_two():
    """The order of the tests: each pair of neighbours, and the ends."""
    bad = {
        2: dict(names=["b", "a", "c"]), 3: dict(types=["t" * 65, "", ""]), 4: dict(top=head(name=3)), 6: dict(nodes=tree(CAST)),
        7: dict(statements=statement(COUNT), blocks=block(1)),
    }
    bad.update({number: dict(nodes=nodes) for number, nodes in FAULTY.items()})
    whole = {k: v for d in bad.values() for k, v in d.items()}
    run("all of 2 to 9", 2, routine(**whole), world(regions=b"\0"), call(depth=256))
    run("all of 1 to 9", 1, routine(**whole) + b"\0", world(regions=b"\0"), call(depth=256))
    for low, high in ((2, 3), (3, 4), (4, 5), (4, 30), (4, 31), (5, 6), (30, 6), (31, 6), (5, 7), (30, 7), (31, 7), (6, 7)):
        both = {**bad[high], **bad[low]}
        # the fault that is found first stands behind the other
        node = 1 if high == 6 else 0
        if node:
            both["nodes"] = bad[high]["nodes"] + bad[low]["nodes"]
        run("%d and %d" % (low, high), low, routine(**both), node=node)
    run("7 and 8", 7, routine(**bad[7]), world(regions=b"\0"))
    run("8 and 9", 8, w=world(regions=b"\0"), c=call(depth=256))
    run("1 and 9", 1, routine() + b"\0", c=call(depth=256))
    run("4 and 9", 4, routine(**bad[4]), c=call(depth=256))
    for low in FAULTY:
        run("%d, 8 and 9" % low, low, routine(**bad[low]), world(regions=b"\0"), call(depth=256))
        run("2 and %d" % low, 2, routine(**bad[low], **bad[2]))
        run("1 and %d" % low, 1, routine(**bad[low]) + b"\0")
    for low in bad:
        constant("constant: %d and a node past the last" % low, low, 2 ** 32 - 1, routine(**bad[low]))


def constants():
    constant("constant: node 0", 0, 0)
    constant("constant: the last node", 0, COUNT - 1)
    constant("constant: past the last node", 9, COUNT)
    constant("constant: node 2^32 - 1", 9, 2 ** 32 - 1)
    constant("constant: a field", 9, FIELD_NODE)
    constant("constant: a StructInit", 0, FIELD_NODE - 1)
    constant("constant: a node under a field", 0, FIELD_NODE + 1)
    constant("constant: a routine of no node", 9, 0, routine(nodes=b"", statements=b"", blocks=b""))
    constant("constant: no file", 1, 0, b"")
    constant("constant: a routine without blocks", 0, 0, routine(statements=b"", blocks=b""))
    for number, bad in FAULTY.items():
        for asked in (0, 1, 2, 3):
            constant("constant: node %d, and %d at node 2" % (asked, number), number, asked, only(X + ONE + bad), 2)
        constant("constant: %d before a wrong tree" % number, number, 0, only(X + bad + tree(CAST)), 1)
        constant("constant: a part of a node that would be %d" % number, 6, 0, only(X + bad[:19]))


# ---- writing them

def pieces(f):
    """A file as pieces that stand there more than once: long runs of one byte or of one node."""
    found, at, plain = [], 0, 0
    while at < len(f):
        best = 0
        for size in (1, 20):
            unit, times = f[at:at + size], 1
            while f[at + times * size:at + (times + 1) * size] == unit:
                times += 1
            if times * size > 200 and times * size > best:
                best, chosen = times * size, (times, unit)
        if best:
            if plain < at:
                found.append((1, f[plain:at]))
            found.append(chosen)
            at += best
            plain = at
        else:
            at += 1
    if plain < len(f):
        found.append((1, f[plain:]))
    return found


def coded(f):
    found = pieces(f)
    assert b"".join(unit * times for times, unit in found) == f
    return struct.pack("<H", len(found)) + b"".join(struct.pack("<II", times, len(unit)) + unit for times, unit in found)


def all_cases():
    """Each case: its name, its number and node, the node of a `constant_value` or None, and its files."""
    for part in (tables, limits_of_files, names, types, heads, fields, references, one_node, two_nodes, far_nodes, beside_trees, beside_a_part,
                 child_counts, chains, spans, field_places, node_bodies, roots, dealt, terminators, switches, worlds, calls, first_of_two,
                 constants):
        part()
    return CASES


def case_bytes(name, numbers, asked, files):
    how = b"\0" if asked is None else b"\1" + struct.pack("<I", asked)
    return text(name) + struct.pack("<BI", *numbers) + how + b"".join(coded(f) for f in files)


def main():
    pages = [b""]
    for name, numbers, asked, files in all_cases():
        found = refusal(*files) if asked is None else constant_refusal(files[0], asked)
        if found != numbers:
            sys.exit("%s: said %d at node %d, read %d at node %d" % ((name,) + numbers + found))
        if "--list" in sys.argv:
            print(*numbers, name)
        case = case_bytes(name, numbers, asked, files)
        if len(pages[-1] + case) > PAGE:
            pages[-1] = pages[-1].ljust(PAGE, b"\0")
            pages.append(b"")
        pages[-1] += case
    if "--list" in sys.argv:
        return
    (ROOT / "data").mkdir(parents=True, exist_ok=True)
    data = b"".join(pages)
    (ROOT / "data" / "cases.bin").write_bytes(data)
    (ROOT / "stdout").write_text("%d cases compared\n" % len(CASES))
    print("%d cases, %d bytes" % (len(CASES), len(data)))


if __name__ == "__main__":
    main()
