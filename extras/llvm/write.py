"""Writes a function's blocks as structured statements of this language, which are tuples:

("copy" r a) ("op" r a OP b) ("load" r x) ("store" x a) ("aload" r ORDER y) ("astore" ORDER y a) ("update" r HOW ORDER y a..)
("fence" ORDER) ("print" a) ("call" r f a..) ("if" a S T) ("while" a S) ("skip",); ("turned" r a) is a copy in a load's place.
An `if` is written by where the paths meet again, a `while` for a natural loop; a phi is a copy at the end of each edge."""
from read import No, wrapped


class Said(tuple):
    """A statement with the line of C that it comes from, 0 where none is known."""

    line = 0


def said(statement, line):
    out = Said([said(s, line) for s in part] if isinstance(part, list) else part for part in statement)
    out.line = line
    return out


def computed(one):
    r, key, ops = one.result, one.key, one.ops
    out = []

    def op(a, sign, b, to=r):
        out.append(("op", to, a, sign, b))
        return to

    def unsigned(value, bits, to):
        if isinstance(value, int):
            return value & ((1 << bits) - 1) if bits < 64 else value
        return op(value, "&", (1 << bits) - 1, to) if 1 < bits < 64 else value

    def fit(bits):
        if 1 < bits < 64:
            op(r, "&", (1 << bits) - 1)
            op(r, "^", 1 << (bits - 1))
            op(r, "-", 1 << (bits - 1))
        elif bits == 1:
            op(r, "&", 1)

    word = key[0]
    if word == "copy":
        out.append(("copy", r, ops[0]))
    elif word == "==":
        op(ops[0], "==", ops[1])
    elif word == "zext":
        value = unsigned(ops[0], key[1], r)
        if value != r:
            out.append(("copy", r, value))
    elif word == "sext":
        if key[1] == 1:
            op(0, "-", ops[0])
        else:
            out.append(("copy", r, ops[0]))
    elif word == "trunc":
        out.append(("copy", r, ops[0]))
        fit(key[2])
    elif word == "select":
        out.append(("if", ops[0], [("copy", r, ops[1])], [("copy", r, ops[2])]))
    elif word == "icmp":
        how, bits = key[1], key[2]
        left, right = ops
        sign = {"eq": "==", "ne": "!=", "lt": "<", "le": "<="}[how if how in ("eq", "ne") else how[1:]]
        if how[0] == "u" and bits == 64:
            least = -(1 << 63)
            left = wrapped(left ^ least) if isinstance(left, int) else op(left, "^", least, r + "!l")
            right = wrapped(right ^ least) if isinstance(right, int) else op(right, "^", least, r + "!r")
        elif how[0] == "u":
            left, right = unsigned(left, bits, r + "!l"), unsigned(right, bits, r + "!r")
        elif how[0] == "s" and bits == 1:
            raise No("a signed comparison of bits")
        op(left, sign, right)
    else:
        bits, whole = key[1], key[2]
        left, right = ops
        sign = {"add": "+", "sub": "-", "mul": "*", "and": "&", "or": "|", "xor": "^", "sdiv": "/", "srem": "mod", "udiv": "/", "urem": "mod"}.get(word)
        if word in ("udiv", "urem"):
            if bits == 64:
                raise No(f"{word} of 64 bits")
            op(unsigned(left, bits, r + "!l"), sign, unsigned(right, bits, r + "!r"))
            fit(bits)
        elif word in ("shl", "lshr", "ashr"):
            if not isinstance(right, int) or not 0 < right < bits - (word == "shl"):
                raise No(f"{word} by no constant")
            if word == "shl":
                op(left, "*", 1 << right)
                if not whole or bits < 64:
                    fit(bits)
            else:
                if word == "lshr" and bits < 64:
                    left = unsigned(left, bits, r + "!u")
                low = op(left, "&", (1 << right) - 1, r + "!l")
                op(op(left, "-", low, r + "!h"), "/", 1 << right)
                if word == "lshr" and bits == 64:
                    op(r, "&", (1 << (64 - right)) - 1)
        else:
            op(left, sign, right)
            if not whole:
                fit(bits)
    return out


def accessed(one):  # the statements of an access; of an array with an index, one for each cell
    def single(name):
        if one.kind == "load":
            return ("load", one.result, name)
        if one.kind == "store":
            return ("store", name, one.ops[0])
        if one.kind == "aload":
            return ("aload", one.result, one.key[0], name)
        if one.kind == "astore":
            return ("astore", one.key[0], name, one.ops[0])
        return ("update", one.result or "%!old", one.key[0], one.key[1], name, *one.ops)
    if isinstance(one.where, str):
        return [single(one.where)]
    out = []
    names, index = one.where
    for number, name in enumerate(names):
        out += [("op", "%!cell", index, "==", number), ("if", "%!cell", [single(name)], [])]
    return out


def effect(one):
    if one.kind in ("load", "store", "aload", "astore", "update"):
        return accessed(one)
    if one.kind == "fence":
        return [("fence", one.key[0])]
    if one.kind == "print":
        return [("print", one.ops[0])]
    if one.kind == "use":
        return [("copy", "%!used", one.ops[0])]
    if one.kind == "call":
        return [("call", one.result or "%!unused", one.key[0], *one.ops)]
    return computed(one)


EFFECTS = ("load", "store", "aload", "astore", "update", "fence", "print", "use", "call", "divide")


class Shape:
    """The blocks of a function: their successors, dominators and loops."""

    def __init__(self, fn):
        self.fn, self.blocks = fn, {}
        for name, body in fn.blocks.items():
            last = body[-1]
            self.blocks[name] = list(last.key) if last.kind != "ret" else []
        self.entry = next(iter(self.blocks))
        order, seen = [], set()

        def visit(name):
            seen.add(name)
            for to in reversed(self.blocks[name]):
                if to not in seen:
                    visit(to)
            order.append(name)
        visit(self.entry)
        self.order = order[::-1]
        self.blocks = {name: self.blocks[name] for name in self.order}
        self.before = {name: [b for b in self.order if name in self.blocks[b]] for name in self.order}
        every = set(self.order)
        self.dom = {name: every for name in self.order}
        self.dom[self.entry] = {self.entry}
        changed = True
        while changed:
            changed = False
            for name in self.order[1:]:
                new = set.intersection(*(self.dom[b] for b in self.before[name])) | {name}
                changed |= new != self.dom[name]
                self.dom[name] = new
        self.loops, rank = {}, {name: k for k, name in enumerate(self.order)}
        for name in self.order:
            for to in self.blocks[name]:
                if rank[to] <= rank[name]:
                    if to not in self.dom[name]:
                        raise No("a loop with two heads")
                    body, work = self.loops.setdefault(to, {to}), [name]
                    while work:
                        one = work.pop()
                        if one not in body:
                            body.add(one)
                            work += self.before[one]
        self.exit = {}
        for head, body in self.loops.items():
            out = {to for b in body for to in self.blocks[b]} - body
            if len(out) > 1:
                raise No(f"the loop at {head} has {len(out)} blocks behind it")
            self.exit[head] = out.pop() if out else "END"


class Writer:
    """A function as structured statements; `edits` says what takes the place of an instruction, `inserts` what stands before
    the instruction of this number in a block."""

    def __init__(self, fn, shape, pure_heads, edits=None, inserts=None):
        self.fn, self.shape, self.pure_heads = fn, shape, pure_heads
        self.edits, self.inserts = edits or {}, inserts or {}
        self.count = 0

    def copies(self, start, to):  # the phis of an edge
        pairs = []
        for one in self.fn.blocks[to]:
            if one.kind == "phi":
                pairs.append((one.result, one.ops[one.key.index(start)]))
        pairs = [(r, a) for r, a in pairs if r != a]
        results = {r for r, _ in pairs}
        if not any(a in results for _, a in pairs):
            return [("copy", r, a) for r, a in pairs]
        return [("copy", r + "!in", a) for r, a in pairs] + [("copy", r, r + "!in") for r, _ in pairs]

    def body(self, name):  # statements, and the loads that are put in at the end
        out = []
        block = self.fn.blocks[name]
        for number, one in enumerate(block):
            out += self.inserts.get((name, number), []) if number < len(block) - 1 else []
            edit = self.edits.get((name, number))
            if edit is not None:
                out += [said(s, one.line) for s in edit]
            elif one.kind == "pure" or one.kind in EFFECTS:
                if not (one.kind == "pure" and self.alone(one, block)):
                    out += [said(s, one.line) for s in effect(one)]
            self.count += 1
        if self.count > 8192:  # blocks that several lead to are written for each
            raise No("the branches of this function, as nested ones, are too long")
        return out, self.inserts.get((name, len(block) - 1), [])

    def alone(self, one, block):  # a test against 0 that only the branch of its block reads is no statement
        return one.key[:2] == ("icmp", "ne") and one.ops[1] == 0 and block[-1].ops == [one.result] and isinstance(one.ops[0], str) and one.result not in self.read

    def condition(self, name):
        block = self.fn.blocks[name]
        for one in block:
            if one.result is not None and one.result == block[-1].ops[0] and one.kind == "pure" and self.alone(one, block):
                return one.ops[0]
        return block[-1].ops[0]

    def join(self, name, head, leave):  # where all paths from a block meet again, at this depth of loops
        def after(b):
            if b in (None, "END"):
                return []
            if b != head and b in self.shape.loops:
                return [self.shape.exit[b]]
            return self.shape.blocks[b] or ["END"]
        paths = {}

        def meets(b, root=False):
            if b == "END" or (not root and b in (head, leave)):
                return [b]
            if b in paths:
                return paths[b]
            lists = [meets(to) for to in after(b)]
            common = [x for x in lists[0] if all(x in other for other in lists[1:])]
            paths[b] = ([] if root else [b]) + common
            return paths[b]
        found = meets(name, True)
        return found[0] if found else "END"

    def run(self, name, end, head, leave, stops):
        out = []
        while name != end and name != "END":
            if name in stops:
                return out + stops[name]
            if name in self.shape.loops and name != head:
                out += self.loop(name, [])
                name = self.shape.exit[name]
                continue
            out += self.one(name, end, head, leave, stops)
            name = self.next
            if name is None:
                return out
        return out

    def one(self, name, end, head, leave, stops):
        out, late = self.body(name)
        last = self.fn.blocks[name][-1]
        if last.kind == "ret":
            if last.ops:
                out.append(self.headed(("copy", "%!result", last.ops[0]), last))
            self.next = None
            return out + late
        if last.kind == "goto":
            to = last.key[0]
            if to in self.shape.loops and to != head and to not in stops:
                out += self.copies(name, to) + self.loop(to, late)
                self.next = self.shape.exit[to]
                return out
            self.next = to
            return out + late + self.copies(name, to)
        out += late
        meeting = self.join(name, head, leave)
        sides = []
        for to in last.key:
            sides.append(self.copies(name, to) + self.side(to, meeting, head, leave, stops))
        if sides[0] == [] and len(sides[1]) == 1 and sides[1][0][0] == "copy" and sides[1][0][1].startswith("%!go.") and sides[1][0][2] == 0:
            out.append(self.headed(("copy", sides[1][0][1], self.condition(name)), last))
        else:
            out.append(self.headed(("if", self.condition(name), *sides), last))
        self.next = meeting if meeting != "END" else None
        if meeting in stops:
            # each side has come to it, and has said so
            self.next = None
            out += stops[meeting]
        return out

    def side(self, to, meeting, head, leave, stops):
        if to == meeting:
            return []
        if to == head or to == leave:
            return stops[to]
        return self.run(to, meeting, head, leave, stops)

    def loop(self, head, late):
        leave = self.shape.exit[head]
        if head in self.pure_heads:
            body, _ = self.body(head)
            if body:
                raise No("the head of a loop isn't bare")
            inside = self.fn.blocks[head][-1].key[0]
            turn = self.copies(head, inside) + self.side(inside, None, head, leave, {head: [], leave: []})
            return late + [self.headed(("while", self.condition(head), turn), self.fn.blocks[head][-1])] + self.copies(head, leave)
        go = "%!go." + head
        stops = {head: [], leave: [("copy", go, 0)]}
        out = self.one(head, None, head, leave, stops)
        if self.next is not None:
            out += stops[self.next] if self.next in stops else self.run(self.next, None, head, leave, stops)
        return [("copy", go, 1)] + late + [self.headed(("while", go, out), self.fn.blocks[head][-1])]

    def headed(self, statement, last):  # (its blocks have their own lines already)
        out = Said(statement)
        out.line = last.line
        return out

    def whole(self):
        self.read = set()  # values that are read elsewhere than by the branch of their block
        for name in self.shape.order:
            block = self.fn.blocks[name]
            for one in block:
                ops = list(one.ops) + ([one.where[1]] if isinstance(one.where, tuple) else [])
                for a in ops:
                    home = any(b.result == a for b in block)
                    if not (one.kind == "branch" and home):
                        self.read.add(a)
        out = self.run(self.shape.entry, "END", None, None, {})
        result = 0
        if out and out[-1][:2] == ("copy", "%!result") and not self.many():
            result = out.pop()[2]
        elif any(one.ops for b in self.shape.order for one in self.fn.blocks[b] if one.kind == "ret"):
            result = "%!result"
        return out, result

    def many(self):
        return sum(1 for b in self.shape.order if self.fn.blocks[b][-1].kind == "ret") > 1


def bare_heads(fn, shape):  # heads of loops that only test a value against 0, which comes in by a phi or from before
    found = set()
    for head, body in shape.loops.items():
        block = fn.blocks[head]
        rest = [one for one in block[:-1] if one.kind != "phi"]
        last = block[-1]
        if len(rest) != 1 or last.kind != "branch" or last.ops != [rest[0].result]:
            continue
        one = rest[0]
        if one.kind != "pure" or one.key[:2] != ("icmp", "ne") or one.ops[1] != 0 or not isinstance(one.ops[0], str):
            continue
        read = any(one.result in other.ops for b in fn.blocks for other in fn.blocks[b] if other is not last)
        if not read and last.key[0] in body and last.key[1] == shape.exit[head]:
            found.add(head)
    return found
