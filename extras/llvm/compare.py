"""Whether statements do the same: both are told as a tree of accesses, calls, prints and branches with their values, copies
and computations being followed, constants folded, conditions known inside their branches, and phis known by what they are
given. Equal trees are the same accesses with the same values on the same paths; how the two were written plays no part."""

import collections

from read import No, wrapped

TESTS = {"==", "!=", "<", "<="}
SIGNS = TESTS | {"+", "-", "*", "/", "mod", "&", "|", "^"}
COMMUTE = {"+", "*", "&", "|", "^", "==", "!="}


class Work:
    """How much is done for one function: values that stand in each other again and again grow beyond all bounds."""

    done, most = 0, 400_000

    @classmethod
    def more(cls):
        cls.done += 1
        if cls.done > cls.most:
            raise No("values that are too long to be compared")


def folded(sign, a, b):
    """The value of a computation, as a number where both operands are, else in one form for what is plainly equal."""
    if isinstance(a, int) and isinstance(b, int):
        if sign in ("/", "mod") and b == 0:
            return (sign, a, b)
        quotient = 0 if sign not in ("/", "mod") else abs(a) // abs(b) * (1 if (a < 0) == (b < 0) else -1)
        return wrapped({"+": lambda: a + b, "-": lambda: a - b, "*": lambda: a * b, "&": lambda: a & b, "|": lambda: a | b,
                        "^": lambda: a ^ b, "==": lambda: int(a == b), "!=": lambda: int(a != b), "<": lambda: int(a < b),
                        "<=": lambda: int(a <= b), "/": lambda: quotient, "mod": lambda: a - quotient * b}[sign]())
    if sign in ("+", "|", "^", "-") and b == 0 or sign == "*" and b == 1 or sign == "/" and b == 1:
        return a
    if sign in ("+", "|", "^") and a == 0 or sign == "*" and a == 1:
        return b
    if sign == "&" and 1 in (a, b) and is_bit(b if a == 1 else a):
        return b if a == 1 else a
    if sign == "^" and b == 1 and isinstance(a, tuple) and a[0] in TESTS:  # the test turned round
        return ("!=" if a[0] == "==" else "==", a[1], a[2]) if a[0] in ("==", "!=") else ("<=" if a[0] == "<" else "<", a[2], a[1])
    if a == b and sign in ("-", "^", "!=", "<"):
        return 0
    if a == b and sign in ("==", "<="):
        return 1
    if sign in COMMUTE and repr(b) < repr(a):
        a, b = b, a
    return (sign, a, b)


def is_bit(v):
    return v in (0, 1) or isinstance(v, tuple) and (v[0] in TESTS or v[0] in ("&", "|", "^") and is_bit(v[1]) and is_bit(v[2]))


def rebuilt(v, leaf):
    """A value with other leaves."""
    Work.more()
    if isinstance(v, tuple) and len(v) == 3 and v[0] in SIGNS:
        return folded(v[0], rebuilt(v[1], leaf), rebuilt(v[2], leaf))
    if isinstance(v, tuple) and v[0] == "last":
        inner = rebuilt(v[2], leaf)
        return inner if isinstance(inner, int) else ("last", leaf(v[1]), inner)
    return leaf(v) if isinstance(v, tuple) and v[0] != "in" else v


def bare(v):
    """A condition says only whether a value is 0."""
    while isinstance(v, tuple) and v[0] == "!=" and v[2] == 0:
        v = v[1]
    if isinstance(v, tuple) and v[0] == "|" and any(isinstance(p, int) and p != 0 for p in v[1:]):
        return 1
    return int(v != 0) if isinstance(v, int) else v


def gives(body):
    """The registers that statements give values, one by one."""
    for s in body:
        if s[0] in ("copy", "op", "load", "aload", "update", "call", "turned"):
            yield s[1]
        for part in s[2:]:
            if isinstance(part, list):
                yield from gives(part)


class Teller:
    """Tells what a function does, as a tree: accesses, prints, calls and branches with the values that they have, copies and
    computations being followed. What is read has a number; so has a register that the sides of an `if` or the turns of a
    loop give different values (a phi), which are told beside it."""

    def __init__(self, statements, result):
        self.values, self.facts, self.count = {}, {}, 0
        many = collections.Counter(gives(statements))
        self.phis = {r for r, times in many.items() if times > 1} - {"%!used", "%!cell", "%!old", "%!unused"}
        self.tree = self.go(statements) + [["result", None, self.value(result)]]

    def new(self, word):
        self.count += 1
        return (word, self.count)

    def see(self, v):
        """A value, with what the conditions say that hold here."""
        Work.more()
        facts = self.facts
        if facts.get(v, True) is not True:
            return facts[v]
        if isinstance(v, tuple) and len(v) == 3 and v[0] in SIGNS:
            v = folded(v[0], self.see(v[1]), self.see(v[2]))
            if isinstance(v, tuple) and v[0] in ("==", "!=") and v[2] == 0 and facts.get(v[1]) is True:
                return int(v[0] == "!=")
            return facts[v] if facts.get(v, True) is not True else v
        return v

    def value(self, a):
        return self.see(a if isinstance(a, int) else self.values.get(a, ("in", a)))

    def assume(self, v, holds):
        if isinstance(v, int):
            return
        self.facts[v] = (1 if is_bit(v) else True) if holds else 0
        if v[0] in ("==", "!=") and isinstance(v[2], int) and not isinstance(v[1], int):
            if holds == (v[0] == "=="):
                self.facts[v[1]] = v[2]
            elif v[2] == 0:
                self.facts[v[1]] = True
        elif v[0] == ("&" if holds else "|"):
            self.assume(v[1], holds)
            self.assume(v[2], holds)
        elif v[0] == "^" and v[2] == 1 and (is_bit(v[1]) or not holds):
            self.assume(v[1], not holds)

    def tested(self, a):
        v = bare(self.value(a))
        return 1 if self.facts.get(v) is True else v

    def go(self, body):
        out = []
        for s in body:
            if s[0] in ("copy", "turned"):
                self.values[s[1]] = self.value(s[2])
                if s[1] == "%!used":
                    out.append(["use", None, self.value(s[2])])
            elif s[0] == "op":
                left, right = self.value(s[2]), self.value(s[4])
                self.values[s[1]] = folded(s[3], left, right)
                if s[3] in ("/", "mod") and (not isinstance(s[4], int) or s[4] == 0):
                    out.append(["divide", None, s[3], left, right])
            elif s[0] == "if":
                out += self.branch(s)
            elif s[0] == "while":
                out += self.loop(s)
            elif s[0] != "skip":
                number = self.new("read") if s[0] in ("load", "aload", "update", "call") else None
                rest = s[2:] if number else s[1:]
                out.append([s[0], number] + [self.value(a) if isinstance(a, int) or a.startswith("%") else a for a in rest])
                if number:
                    self.values[s[1]] = number
        return out

    def branch(self, s):
        condition = self.tested(s[1])
        if isinstance(condition, int):  # the other side is never come to
            return self.go(s[2] if condition else s[3])
        kept, known = dict(self.values), dict(self.facts)
        self.assume(condition, True)
        one, first = self.go(s[2]), self.values
        self.values, self.facts = kept, dict(known)
        self.assume(condition, False)
        other = self.go(s[3])
        self.facts = known
        met = []
        for r in sorted({r for r in list(first) + list(self.values) if first.get(r) != self.values.get(r)}):
            if r in self.phis:
                met.append([self.new("phi"), first.get(r, ("in", r)), self.values.get(r, ("in", r))])
                self.values[r] = met[-1][0]
            else:
                self.values.pop(r, None)
        return [["if", condition, one, other, met]]

    def loop(self, s):
        if self.tested(s[1]) == 0:
            return []
        start, turns = self.count, []
        for r in sorted(r for r in set(gives(s[2])) if r in self.values and r in self.phis):
            turns.append([self.new("phi"), self.values[r], r])
            self.values[r] = turns[-1][0]
        condition, kept, known = self.tested(s[1]), dict(self.values), dict(self.facts)
        self.assume(condition, True)
        inside = self.go(s[2])
        for turn in turns:
            turn[2] = self.value(turn[2])
        self.facts = known
        self.assume(condition, False)
        loop = self.new("loop")

        def within(v):  # whether a value is made anew in each turn
            return isinstance(v, tuple) and (v[0] in ("read", "phi") and v[1] > start or any(within(p) for p in v[1:]))
        # behind the loop a value that is made in it is that of the last turn
        kept.update({r: ("last", loop, v) if within(v) else v for r, v in self.values.items() if r not in kept})
        self.values = kept
        return [["while", condition, inside, turns, loop]]


def leaves(v, into):
    """The numbered values that a value is made of."""
    Work.more()
    if isinstance(v, tuple):
        if v[0] in ("phi", "read", "loop"):
            into.add(v)
        else:
            for p in v[1:]:
                leaves(p, into)
    return into


class Tidy:
    """A tree without the phis that nothing depends on, those that are one value in truth, and branches that make no
    difference: one turn, to be repeated while it changes something."""

    def __init__(self, tree):
        self.phis, self.wanted, self.instead, self.changed = {}, set(), {}, False
        self.look(tree)
        work = list(self.wanted)
        while work:
            for v in self.phis.get(work.pop(), ()):
                more = leaves(v, set()) - self.wanted
                work += more
                self.wanted |= more
        for p, (a, b) in self.phis.items():
            given = {v for v in (a, b) if v != p}
            if len(given) == 1:
                inner = leaves(next(iter(given)), set())
                if p not in inner and not inner & set(self.instead):
                    self.instead[p] = next(iter(given))
        before = len(self.phis)
        self.tree = self.tidy(tree)
        self.phis = {}
        self.look(self.tree)
        self.changed |= bool(self.instead) or len(self.phis) != before

    def look(self, body):
        for s in body:
            if s[0] in ("if", "while"):
                leaves(s[1], self.wanted)
                for part in s[2:4] if s[0] == "if" else s[2:3]:
                    self.look(part)
                for p, a, b in s[4 if s[0] == "if" else 3]:
                    self.phis[p] = (a, b)
            else:
                for v in s[2:]:
                    leaves(v, self.wanted)

    def put(self, v):
        return rebuilt(v, lambda leaf: self.instead.get(leaf, leaf))

    def kept(self, phis):
        return [[p, self.put(a), self.put(b)] for p, a, b in phis if p in self.wanted and p not in self.instead]

    def tidy(self, body):
        out = []
        for s in body:
            if s[0] == "if":
                condition = bare(self.put(s[1]))
                if isinstance(condition, int):
                    self.changed = True
                    for p, a, b in s[4]:
                        self.instead[p] = self.put(a if condition else b)
                    out += self.tidy(s[2] if condition else s[3])
                    continue
                met = self.kept(s[4])
                one = ["if", condition, self.tidy(s[2]), self.tidy(s[3]), met]
                out += [one] if one[2] or one[3] or met else []
                self.changed |= not (one[2] or one[3] or met)
            elif s[0] == "while":
                condition = bare(self.put(s[1]))
                if condition == 0:
                    self.changed = True
                    for p, a, _ in s[3]:
                        self.instead[p] = self.put(a)
                    continue
                out.append(["while", condition, self.tidy(s[2]), self.kept(s[3]), s[4]])
            else:
                out.append(s[:2] + [self.put(v) for v in s[2:]])
        return out


class Lines:
    """A tree as lines, numbers being given anew, in order."""

    def __init__(self, tree):
        self.numbers, self.lines = {}, []
        self.write(tree, 0)

    def named(self, v):
        return rebuilt(v, lambda leaf: self.numbers.setdefault(leaf, (leaf[0], len(self.numbers))))

    def line(self, depth, word, *values):
        self.lines.append((depth, word, *(self.named(v) for v in values)))

    def write(self, body, depth):
        for s in body:
            if s[0] == "if":
                self.line(depth, "if", s[1])
                self.write(s[2], depth + 1)
                self.line(depth, "else")
                self.write(s[3], depth + 1)
                for phi in s[4]:
                    self.line(depth, "met", *phi)
            elif s[0] == "while":
                for p, a, _ in s[3]:
                    self.line(depth, "begins", p, a)
                self.line(depth, "while", s[1])
                self.write(s[2], depth + 1)
                for p, _, b in s[3]:
                    self.line(depth, "goes on", p, b)
                self.line(depth, "behind", s[4])
            else:
                self.line(depth, s[0], *([s[1]] if s[1] else []), *s[2:])


def same_text(statements, result):
    """What statements do, as lines that are equal where it is the same."""
    tree, changed = Teller(statements, result).tree, True
    while changed:
        once = Tidy(tree)
        tree, changed = once.tree, once.changed
    return Lines(tree).lines
