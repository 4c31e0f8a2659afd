#!/usr/bin/env python3
"""Times the program on documents of 1, 4 and 16 MiB, on wide ones, and on hostile inputs; the readers alone; and
schemas built in code.

Run it at the top of the repository, after `./gqlsdl </dev/null` has built the program, and `rt run schema_bench` and
`rt run reader_bench` the programs of those names; what is not built is left out:

    python3 bench/run.py

Seconds are those of the processor, the best of three runs. For each document it prints them, as a multiple of those of
`iconv -f UTF-8 -t UTF-8` over the same bytes in the same run, the peak memory as a multiple of the input, the seconds of
`cat`, and after the 16 MiB the ratio of its time to that of the 4 MiB, which stays near 4 where the time is linear. For
each wide document it prints the seconds of one half as wide as well, and at last those of a small document.
It needs nothing but Python 3 and iconv, and writes nothing but a temporary folder.
"""

import os
import subprocess
import sys
import tempfile

TOP = os.path.dirname(os.path.dirname(os.path.abspath(__file__)))
PROGRAM = os.path.join(TOP, "crates", "gqlsdl", "out", "gqlsdl")
SCHEMAS = os.path.join(TOP, "crates", "schema_bench", "out", "schema_bench")
READERS = os.path.join(TOP, "crates", "reader_bench", "out", "reader_bench")
ICONV = ["iconv", "-f", "UTF-8", "-t", "UTF-8"]
MIB = 1 << 20
HEAD = "schema{query:Query} type Query{v:Int}\n"

# what every service uses
SHARED = HEAD + '''interface Named { name: String! }
type Address { street: String city: String! }
enum Currency { EUR USD }
scalar Money
'''

# one service's worth of definitions
SERVICE = '''
"""
A customer of the shop, with all that the shop keeps of one.
"""
type Customer{0} implements Node{0} & Named @key(fields: "id") {{
  "the number of the customer"
  id: ID!
  name: String! @deprecated(reason: "use `fullName`")
  fullName(style: NameStyle{0} = SHORT): String!
  """
  Orders, newest first. The first page has at most `first` of them.
  """
  orders(first: Int = 20, after: String, states: [OrderState{0}!] = [OPEN, PAID]): [Order{0}!]!
  address(kind: AddressKind{0}): Address
  favourites(filter: FavouriteFilter{0} = {{since: "2020-01-01", limit: 5}}): [Favourite{0}]
  balance(currency: Currency = EUR): Money! @cost(weight: 3)
  notes: [String!] @auth(roles: ["admin", "support"])
}}

type Order{0} implements Node{0} {{
  id: ID!
  state: OrderState{0}!
}}

interface Node{0} {{
  "the number"
  id: ID!
}}

enum NameStyle{0} {{ SHORT LONG }}

enum AddressKind{0} {{ HOME WORK }}

enum OrderState{0} {{ OPEN PAID SENT "taken back" RETURNED @deprecated }}

union Favourite{0} = Customer{0} | Order{0}

input FavouriteFilter{0} {{
  since: String = "2019-01-01"
  limit: Int! = 10 @range(min: 1, max: 100)
  names: [String!]
}}
'''


def filled(path, head, line, tail, size):
    """Writes a text of at most `size` bytes: the head, as many numbered lines as there is room for, and the tail."""
    room, number = size - len(head) - len(tail), 0
    with open(path, "w", encoding="utf-8") as file:
        file.write(head)
        while True:
            piece = line.format(number)
            if len(piece) > room:
                break
            file.write(piece)
            room -= len(piece)
            number += 1
        file.write(tail)


SHAPES = {
    "scalars": (HEAD, "scalar S{0}\n", ""),
    "objects": (HEAD, "type T{0} {{ id: ID! name: String next: [T{0}!]! }}\n", ""),
    "one object": ("schema{query:Query} type Query{\n", "  field{0}: [Int!]!\n", "}\n"),
    "services": (SHARED, SERVICE, ""),
}

QUERY = "type Query{v:Int}\n"


def lined(head, line, count, end):
    """The head, numbered lines, and the end."""
    yield head
    for number in range(count):
        yield line.format(number)
    yield end


def union(count):
    """Objects, and a union of them."""
    yield from lined(QUERY, "type T{0} {{ v: Int }}\n", count, "union U =\n")
    yield from lined("", "  | T{0}\n", count, "")


def linked(kind, field, last, count):
    """Types of a kind that each lead to the next, and where the last one leads."""
    yield QUERY
    for number in range(count):
        name = f"T{number + 1}" if number + 1 < count else last
        yield f"{kind} T{number} {{{field.format(name)}}}\n"


# a document of so many parts
WIDE = {
    "100,000 fields in a type": lambda n: lined("type Query{\n", "  field{0}(a: Int): [Int!]!\n", n, "}\n"),
    "100,000 types": lambda n: lined(QUERY, "type T{0} @a {{ v: Int }}\n", n, ""),
    "100,000 enum values": lambda n: lined(QUERY + "enum E{\n", "  VALUE{0}\n", n, "}\n"),
    "100,000 arguments": lambda n: lined("type Query{v(\n", "  a{0}: Int = 1\n", n, "):Int}\n"),
    "100,000 union members": union,
    "100,000 implementers": lambda n: lined(QUERY + "interface I{v:Int}\n", "type T{0} implements I{{v:Int}}\n", n, ""),
    "a chain of 100,000 inputs": lambda n: linked("input", "a:{0}!", "Int", n),
    "a ring of 100,000 inputs": lambda n: linked("input", "a:{0}!", "T0", n),
    "a chain of 100,000 interfaces": lambda n: linked("interface", "a:{0}!", "Int", n),
    "a ring of 100,000 interfaces": lambda n: linked("interface", "a:{0}!", "T0", n),
}

# the beginning, one part, how often it stands, and the status that is wanted
HOSTILE = {
    "the empty input": (b"", b"", 0, 1),
    "bytes that are no UTF-8": (b"scalar A\xff", b"", 0, 1),
    "100,000 opening brackets": (b"schema{query:Query} type Query{v:", b"[", 100_000, 1),
    "16 MiB of {": (b"", b"{", 16 * MIB, 1),
    "a name of 16 MiB": (b"", b"a", 16 * MIB, 1),
    "16 MiB of names": (b"", b"a ", 8 * MIB, 1),
    "16 MiB of [": (b"", b"[", 16 * MIB, 1),
    '16 MiB of "': (b"", b'"', 16 * MIB, 1),
    "16 MiB of @a": (b"type Query", b"@a", 8 * MIB - 5, 1),
    "a string of 16 MiB": (b'"', b"a", 16 * MIB - 1, 1),
    "a block string of 16 MiB": (b'"""', b"  a\n", 4 * MIB - 1, 1),
    "a comment of 16 MiB": (b"#", b"a", 16 * MIB - 1, 1),
    "16 MiB and a byte": (b"", b" ", 16 * MIB + 1, 6),
}

# the words of `schema_bench`: what a schema that is built in code has many of, and how many
BUILT = {
    "100,000 types with one field": ("types", 100_000),
    "20,000 implementers": ("implementers", 20_000),
    "100,000 fields of an interface": ("fields", 100_000),
    "a chain of 100,000 inputs": ("chain", 100_000),
    "a ring of 100,000 inputs": ("ring", 100_000),
    "a chain of 700,000 inputs": ("chain", 700_000),
    "a ring of 700,000 inputs": ("ring", 700_000),
    "2,000 inputs, the last needs itself": ("loop", 2_000),
    "a chain of 100,000 types, searched": ("links", 100_000),
    "a type with 100,000 edges, searched": ("edges", 100_000),
}


def run(command, path, folder):
    """The status, the processor's seconds and the peak memory in bytes of one run over a file."""
    with open(path, "rb") as source, open(os.path.join(folder, "out"), "wb") as target:
        child = subprocess.Popen(command, stdin=source, stdout=target, stderr=subprocess.DEVNULL)
        _, status, usage = os.wait4(child.pid, 0)
    return os.waitstatus_to_exitcode(status), usage.ru_utime + usage.ru_stime, usage.ru_maxrss * 1024


def best(command, path, folder):
    runs = [run(command, path, folder) for _ in range(3)]
    return runs[0][0], min(r[1] for r in runs), max(r[2] for r in runs)


def shapes(folder):
    print(f"{'document':<12}{'MiB':>5}{'status':>8}{'seconds':>10}{'x iconv':>9}{'MB/s':>8}{'peak':>8}{'cat':>9}{'16 to 4':>9}")
    path = os.path.join(folder, "in")
    for name, (head, line, tail) in SHAPES.items():
        earlier = {}
        for size in (1, 4, 16):
            filled(path, head, line, tail, size * MIB)
            length = os.path.getsize(path)
            status, seconds, peak = best([PROGRAM], path, folder)
            _, unit, _ = best(ICONV, path, folder)
            _, floor, _ = best(["cat"], path, folder)
            earlier[size] = seconds
            ratio = f"{seconds / earlier[4]:>9.2f}" if size == 16 else ""
            print(
                f"{name:<12}{size:>5}{status:>8}{seconds:>10.3f}{seconds / unit:>9.1f}"
                f"{length / 1e6 / seconds:>8.1f}{peak / length:>8.1f}{floor:>9.4f}{ratio}"
            )


READERS_OF = (
    ("the tree as it is written", "tree"),
    ("the document that borrows", "borrowed"),
    ("the document of its own", "document"),
)


def readers(folder):
    print(f"{'services, 16 MiB':<28}{'seconds':>10}{'x iconv':>9}{'MB/s':>8}{'peak':>8}")
    path = os.path.join(folder, "in")
    filled(path, *SHAPES["services"], 16 * MIB)
    length = os.path.getsize(path)
    _, unit, _ = best(ICONV, path, folder)
    for name, word in READERS_OF:
        _, seconds, peak = best([READERS, word], path, folder)
        print(f"{name:<28}{seconds:>10.3f}{seconds / unit:>9.1f}{length / 1e6 / seconds:>8.1f}{peak / length:>8.1f}")


def wide(folder):
    print(f"\n{'wide document':<30}{'status':>8}{'seconds':>10}{'peak MiB':>10}{'half as wide':>14}")
    path = os.path.join(folder, "in")
    for name, pieces in WIDE.items():
        times = []
        for part in (50_000, 100_000):
            with open(path, "w", encoding="utf-8") as file:
                file.writelines(pieces(part))
            status, seconds, peak = best([PROGRAM], path, folder)
            times.append(seconds)
        print(f"{name:<30}{status:>8}{times[1]:>10.3f}{peak / MIB:>10.1f}{times[0]:>14.3f}")


def start(folder):
    """One small document, a hundred times."""
    path = os.path.join(folder, "in")
    with open(path, "w", encoding="utf-8") as file:
        file.write(HEAD)
    seconds = sum(run([PROGRAM], path, folder)[1] for _ in range(100)) / 100
    print(f"\na small document: {seconds * 1000:.1f} ms")


def hostile(folder):
    print(f"\n{'hostile input':<28}{'status':>8}{'seconds':>10}{'peak MiB':>10}")
    path, good = os.path.join(folder, "in"), True
    for name, (head, part, count, want) in HOSTILE.items():
        with open(path, "wb") as file:
            file.write(head)
            for _ in range(count // 1024):
                file.write(part * 1024)
            file.write(part * (count % 1024))
        status, seconds, peak = run([PROGRAM], path, folder)
        good = good and status == want
        note = "" if status == want else f"  (status {want} is wanted)"
        print(f"{name:<28}{status:>8}{seconds:>10.3f}{peak / MIB:>10.1f}{note}")
    return good


def built(folder):
    print(f"{'schema built in code':<38}{'status':>8}{'seconds':>10}{'peak MiB':>10}{'half as many':>14}")
    for name, (shape, count) in BUILT.items():
        times = []
        for part in (count // 2, count):
            status, seconds, peak = best([SCHEMAS, shape, str(part)], os.devnull, folder)
            times.append(seconds)
        print(f"{name:<38}{status:>8}{times[1]:>10.3f}{peak / MIB:>10.1f}{times[0]:>14.3f}")


def documents(folder):
    shapes(folder)
    wide(folder)
    start(folder)
    return hostile(folder)


def main():
    good = True
    with tempfile.TemporaryDirectory() as folder:
        if os.access(SCHEMAS, os.X_OK):
            built(folder)
        else:
            print("schema_bench is not built: run `rt run schema_bench` first", file=sys.stderr)
        if os.access(READERS, os.X_OK):
            readers(folder)
        else:
            print("reader_bench is not built: run `rt run reader_bench` first", file=sys.stderr)
        if os.access(PROGRAM, os.X_OK):
            good = documents(folder)
        else:
            print("gqlsdl is not built: run ./gqlsdl </dev/null first", file=sys.stderr)
    if not good:
        sys.exit(1)


if __name__ == "__main__":
    main()
