#!/usr/bin/env python3
"""Writes the generated tables of crates/test_tables/data/pools: generate_pools.py FOLDER

FOLDER/shared_nodes.txt: calls that make nodes again, and a shared node's list.
FOLDER/generated.txt: calls of base pools and lists of nodes, good ones and damaged ones, at random with seed 19; ten
pools.

The wanted answers come from the rules of folding, reading and degrees as written here, over a list of nodes that is
scanned; no part of the program is used. Each run writes the same files.
"""
import os
import random
import sys

P = 2013265921
SEED, ROUNDS = 19, 10
NO_NODES = ['{}', '[]', '5', 'null', '"Leaf"', '{"Leaf":"IsFirst"}', '{"Leaf":{"Constant":-1}}', '{"Leaf":{"Constant":1.5}}',
            '{"Leaf":{"Constant":1},"more":0}', '{"Leaf":{"Variable":{"entry":"Main","index":0}}}', '{"Leaf":{"Variable":{"entry":"Public"}}}',
            '{"Div":{"degree_multiple":0,"x":0,"y":0}}', '{"Add":{"degree_multiple":0,"x":0}}', '{"Mul":{"degree_multiple":0,"x":-1,"y":0}}',
            '{"Sub":{"degree_multiple":"0","x":0,"y":0}}', '{"Neg":[0,0]}']


class Pool:
    def __init__(self):
        self.nodes = []  # ("Leaf", text) or (operation, x, y or None)
        self.degrees = []
        self.names = {}

    def put(self, node):
        if node in self.nodes:
            return self.nodes.index(node)
        self.nodes.append(node)
        self.degrees.append(self.degree(node))
        return len(self.nodes) - 1

    def degree(self, node):
        kind = node[0]
        if kind == "Leaf":
            return 0 if node[1].split()[0] in ("Constant", "Public", "IsTransition") else 1
        if kind == "Neg":
            return self.degrees[node[1]]
        x, y = self.degrees[node[1]], self.degrees[node[2]]
        return x + y if kind == "Mul" else max(x, y)

    def constant(self, n):
        return self.put(("Leaf", f"Constant {n % P}"))

    def value(self, x):
        words = self.nodes[x][-1].split() if self.nodes[x][0] == "Leaf" else []
        return int(words[1]) if words[:1] == ["Constant"] else None

    def call(self, name, x, y=None):
        a, b = self.value(x), None if y is None else self.value(y)
        if name.startswith("insert_"):
            return self.put((name[7:].capitalize(), x, y))
        if name == "neg":
            return self.put(("Neg", x, None)) if a is None else self.constant(-a)
        if a is not None and b is not None:
            return self.constant({"add": a + b, "sub": a - b, "mul": a * b}[name])
        if name == "add":
            return y if a == 0 else x if b == 0 else self.put(("Add", x, y))
        if name == "sub":
            return x if b == 0 else self.put(("Neg", y, None)) if a == 0 else self.put(("Sub", x, y))
        return self.constant(0) if 0 in (a, b) else y if a == 1 else x if b == 1 else self.put(("Mul", x, y))

    def name(self, x):
        return self.names.get(x, f"#{x}")

    def text(self, x):
        if x in self.names:
            return self.names[x]
        kind, *rest = self.nodes[x]
        if kind == "Leaf":
            return "Leaf " + rest[0]
        return " ".join([kind] + [self.name(o) for o in rest if o is not None] + [f"degree {self.degrees[x]}"])

    def written(self, x):
        order = []

        def visit(i):
            if i in order:
                return
            for o in self.nodes[i][1:] if self.nodes[i][0] != "Leaf" else ():
                if o is not None:
                    visit(o)
            order.append(i)
        visit(x)
        return "[" + ",".join(node_json(self.nodes[i], order, self.degrees[i]) for i in order) + "]"

    def weighted(self, x, of_leaf, memo=None):
        """The degree by the weights of the leaves; `of_leaf` takes a leaf's words."""
        memo = {} if memo is None else memo
        if x not in memo:
            kind, *rest = self.nodes[x]
            if kind == "Leaf":
                memo[x] = of_leaf(rest[0].split())
            else:
                d = [self.weighted(o, of_leaf, memo) for o in rest if o is not None]
                memo[x] = sum(d) if kind == "Mul" else max(d)
        return memo[x]


def with_transition(weight):
    return lambda words: weight if words[0] == "IsTransition" else 0 if words[0] in ("Constant", "Public") else 1


def over_rows(rows, periods):
    def of_leaf(words):
        if words[0] in ("Constant", "Public"):
            return 0
        if words[0] == "IsTransition":
            return 1
        if words[0] == "Periodic":
            index = int(words[1])
            period = min(periods[index] if index < len(periods) else rows, rows)
            if period > 0:
                return rows - rows // period
        return max(rows - 1, 0)
    return of_leaf


def leaf_json(text):
    words = text.split()
    if words[0] == "Constant":
        return '{"Constant":%s}' % words[1]
    if words[0].startswith("Is"):
        return '"%s"' % words[0]
    entry = '{"%s":{"offset":%s}}' % (words[0], words[1]) if len(words) == 3 else '"%s"' % words[0]
    return '{"Variable":{"entry":%s,"index":%s}}' % (entry, words[-1])


def node_json(node, order, degree):
    kind, *rest = node
    if kind == "Leaf":
        return '{"Leaf":%s}' % leaf_json(rest[0])
    place = (lambda o: o) if order is None else order.index
    xs = ''.join(f',"{n}":{place(o)}' for n, o in zip("xy", rest) if o is not None)
    return '{"%s":{"degree_multiple":%d%s}}' % (kind, degree, xs)


def some_leaf(r):
    i, o = r.randrange(2), r.randrange(3)
    return r.choice([f"Constant {r.choice([0, 1, 2, P - 1])}", f"Main {o} {i}", f"Main {o} {i}", f"Preprocessed {o} {i}", f"Periodic {i}",
                     f"Public {i}", "IsFirstRow", "IsLastRow", "IsTransition"])


def read(pool, nodes):
    """The number of a list's root, or the first fault. A node is (kind, x, y, degree), or a text that isn't a node."""
    if not nodes:
        return None, "EmptyList"
    ids = []
    for at, node in enumerate(nodes):
        if isinstance(node, str):
            return None, "Shape { at: %d }" % at
        kind, x, y, degree = node
        if kind == "Leaf":
            if x.startswith("Constant") and int(x.split()[1]) >= P:
                return None, "NotCanonical { at: %d }" % at
            ids.append(pool.put(("Leaf", x)))
            continue
        for o in (x, y):
            if o is not None and o >= at:
                return None, "Operand { at: %d, operand: %d }" % (at, o)
        made = (kind, ids[x], None if y is None else ids[y])
        if pool.degree(made) != degree:
            return None, "WrongDegree { at: %d, stated: %d, found: %d }" % (at, degree, pool.degree(made))
        ids.append(pool.put(made))
    return ids[-1], None


def some_list(r):
    nodes, degrees = [], []
    for at in range(r.randrange(1, 9)):
        kind = "Leaf" if at == 0 else r.choice(["Leaf", "Neg", "Add", "Sub", "Mul"])
        if kind == "Leaf":
            text = some_leaf(r)
            nodes.append(("Leaf", text, None, None))
            degrees.append(Pool().degree(("Leaf", text)))
        else:
            x, y = r.randrange(at), None if kind == "Neg" else r.randrange(at)
            d = degrees[x] if y is None else degrees[x] + degrees[y] if kind == "Mul" else max(degrees[x], degrees[y])
            nodes.append((kind, x, y, d))
            degrees.append(d)
    at, how = r.randrange(len(nodes)), r.randrange(9)
    kind, x, y, d = nodes[at]
    if how == 0:
        nodes = []
    elif how == 1:
        nodes[at] = ("Leaf", f"Constant {P + r.randrange(3)}", None, None)
    elif how == 2:
        nodes[at] = r.choice(NO_NODES)
    elif kind != "Leaf":
        if how == 3:
            nodes[at] = (kind, r.randrange(len(nodes) + 2), y, d)
        elif how == 4 and y is not None:
            nodes[at] = (kind, x, r.randrange(len(nodes) + 2), d)
        elif how == 5:
            nodes[at] = (kind, x, y, r.randrange(4))
    return nodes


def refused_list(r):
    """A list with a fault; a pool keeps the nodes before it."""
    kind = r.choice(["EmptyList", "Shape", "NotCanonical", "Operand", "WrongDegree"])
    while True:
        nodes = some_list(r)
        fault = read(Pool(), nodes)[1]
        if fault and fault.startswith(kind):
            return nodes


def list_json(nodes):
    return "[" + ",".join(n if isinstance(n, str) else node_json((n[0], n[1], n[2]) if n[0] != "Leaf" else n[:2], None, n[3]) for n in nodes) + "]"


def listed(numbers):
    return ",".join(map(str, numbers)) if numbers else "-"


def degree_lines(r, pool):
    """The degrees of each name, and of some names at once: a cached degree takes no turn, else each node takes one."""
    lines = []
    for x, name in pool.names.items():
        c = pool.value(x)
        lines.append(f"as_const {name} => {c}")
        lines.append(f"degree_multiple {name} => {pool.degrees[x]}")
        w = r.choice([0, 1, 2, 5])
        lines.append(f"degree_multiple_with_transition {name} {w} => {pool.weighted(x, with_transition(w))}")
        rows, periods = r.choice([0, 1, 2, 5, 8]), r.choice([[], [2], [1, 4], [0, 8]])
        lines.append(f"poly_degree {name} {rows} {listed(periods)} => {pool.weighted(x, over_rows(rows, periods))}")
    xs = r.sample(list(pool.names), 3)
    names, turns = " ".join(pool.names[x] for x in xs), len(pool.nodes)
    for words, of_leaf, count in [("cached", with_transition(0), 0), ("transition 3", with_transition(3), turns),
                                  ("trace 5 2,4", over_rows(5, [2, 4]), turns)]:
        degrees = " ".join(str(pool.weighted(x, of_leaf)) for x in xs)
        lines.append(f"degrees {words} {names} => {degrees} turns {count}")
    return lines


def generated_pool(r):
    pool, lines = Pool(), ["", "new"]

    def say(call, x):
        text = pool.text(x)
        if x in pool.names:
            lines.append(f"{call} => {text}")
        else:
            pool.names[x] = f"t{len(pool.names)}"
            lines.append(f"{pool.names[x]} = {call} => {text}")

    def say_of_many(word, operation, xs):
        z = xs[0]
        for y in xs[1:]:
            z = pool.call(operation, z, y)
        say(f"{word} " + " ".join(pool.names[y] for y in xs), z)
    for turn in range(40):
        known = list(pool.names)
        if len(known) < 3 or r.random() < 0.2:
            leaf = some_leaf(r)
            say("leaf " + leaf, pool.put(("Leaf", leaf)))
            continue
        name = r.choice(["add", "sub", "mul", "neg", "insert_add", "insert_sub", "insert_mul", "insert_neg"])
        x, y = r.choice(known), None if name.endswith("neg") else r.choice(known)
        if name.endswith("mul") and pool.degrees[x] + pool.degrees[y] > 40:
            continue
        call = " ".join([name, pool.names[x]] + ([] if y is None else [pool.names[y]]))
        say(call, pool.call(name, x, y))
        if turn % 4 == 3:
            nodes = some_list(r)
            x, fault = read(pool, nodes)
            if fault:
                lines.append(f"from_flat_value {list_json(nodes)} => {fault}")
            else:
                say(f"from_flat_value {list_json(nodes)}", x)
            nodes = refused_list(r)
            fault = read(pool, nodes)[1]
            lines.append(f"from_flat_value {list_json(nodes)} => {fault}")
            xs = [r.choice(known) for _ in range(r.randrange(1, 4))]
            say_of_many("sum", "add", xs)
            if sum(pool.degrees[x] for x in xs) <= 40:
                say_of_many("product", "mul", xs)
    lines.append(f"len => {len(pool.nodes)}")
    lines += degree_lines(r, pool)
    for x, name in list(pool.names.items()):
        if x % 6 == 0:
            lines.append(f"to_flat_value {name} => {pool.written(x)}")
            lines.append(f"from_flat_value {pool.written(x)} => {name}")
    return lines


def generated():
    r = random.Random(SEED)
    lines = ["# base pools", "",
             "# Random calls and random lists of nodes, valid and damaged: the node that a call makes, one number for equal nodes, all",
             "# degrees, and the lists read and written. By tools/generate_pools.py."]
    for _ in range(ROUNDS):
        lines += generated_pool(r)
    return lines


def columns_and_sums():
    columns = [f"x{i} = variable Main 0 {i}" for i in range(100)]
    sums = [f"s{i} = add x{i} x{i + 1}" for i in range(99)]
    again = [" => ".join(line.split(" = ")[::-1]) for line in columns + sums]
    return ["new"] + columns + sums + ["len => 199"] + again + ["len => 199", "add x1 x0 => Add x1 x0 degree 1", "len => 200"]


def numbers():
    round_of_calls = [("Main 0 3",), ("Main 0 0",), ("Main 0 3",), ("add", 0, 1), ("add", 1, 0), ("add", 0, 1), ("mul", 0, 1),
                      ("sub", 0, 1), ("Main 0 1",), ("mul", 0, 1), ("neg", 4), ("sub", 1, 0), ("mul", 4, 4), ("Main 0 0",),
                      ("neg", 4), ("add", 0, 0), ("mul", 4, 4), ("mul", 7, 2), ("sub", 0, 1), ("mul", 2, 7)]
    pool, lines = Pool(), ["new"]
    for word, *operands in 3 * round_of_calls:
        if operands:
            call = " ".join([f"insert_{word}"] + [f"n{x}" for x in operands])
            x = pool.call(f"insert_{word}", *operands)
        else:
            call, x = f"variable {word}", pool.put(("Leaf", word))
        if x in pool.names:
            lines.append(f"{call} => {pool.names[x]}")
        else:
            pool.names[x] = f"n{x}"
            lines += [f"n{x} = {call}", f"number n{x} => {x}"]
    return lines


def squares(leaf, count, last):
    """The list of a leaf that is squared this often, with the degree that the last square states."""
    degrees = [1 << power for power in range(1, count)] + [last]
    return list_json([("Leaf", leaf, None, None)] + [("Mul", at, at, d) for at, d in enumerate(degrees)])


def shared_nodes():
    column = squares("Main 0 0", 63, 1 << 63)
    return (["# base pools", "", "# Making a node again gives its number: 100 columns and 99 sums, twice. By tools/generate_pools.py."]
            + columns_and_sums()
            + ["", "# The same numbers as in a list that is scanned for an equal node; three rounds."] + numbers()
            + ["", "# A shared node is written once: a column squared 63 times is 64 nodes.", "new", "x = variable Main 0 0",
               "s = insert_mul x x", "repeat 62 s = insert_mul s s", "len => 64", f"to_flat_value s => {column}",
               f"from_flat_value {column} => s", "len => 64", "", "# One more squaring passes the greatest degree.", "new",
               f"from_flat_value {squares('IsFirstRow', 64, 0)} => DegreeOverflow"])


def main():
    if len(sys.argv) != 2:
        sys.exit(__doc__)
    for name, lines in [("shared_nodes.txt", shared_nodes()), ("generated.txt", generated())]:
        with open(os.path.join(sys.argv[1], name), "w", encoding="ascii", newline="\n") as table:
            table.write("\n".join(lines) + "\n")


main()
