"""Lays the accesses of AFTER along those of BEFORE, and writes source and target.

A load or a store that AFTER has no more becomes a copy or a `skip` of the target, a load that only AFTER has one into a new
register. Any way to lay them is right that makes a target which does what AFTER does, and `both` compares the two at the end."""

import sys
import threading

from compare import Work, same_text
from read import Instr, No, UNDEFINED
from text import program
from write import EFFECTS, Shape, Writer, accessed, bare_heads, said

IMPOSSIBLE, LONGEST = 10**9, 10**6


def tree(fn, a, unbound, seen=()):
    """The computation of a value, down to what isn't one."""
    Work.more()
    one = fn.defs.get(a) if isinstance(a, str) else None
    if one is None or one.kind != "pure" or a in unbound or len(seen) > 40:
        return a
    return (one.key,) + tuple(tree(fn, b, unbound, seen + (a,)) for b in one.ops)


def alike(b, a):
    return a.kind == b.kind and a.key == b.key and (a.where == b.where or isinstance(a.where, tuple) and isinstance(b.where, tuple) and a.where[0] == b.where[0])


def bindable(b, a):  # two different constants are never one value
    return isinstance(b, str) or isinstance(a, str) or a == b


class Rows:
    """The effects of one block before and after, laid along each other with the least that is removed and put in."""

    def __init__(self, first, second, gone):
        self.first, self.second, self.gone, self.memo = first, second, gone, {}
        if len(first) * len(second) > LONGEST:
            raise No("a block with too many effects")
        if self.best(0, 0)[0] >= IMPOSSIBLE:
            raise self.why()

    def best(self, i, j):
        """The cost from here, and how it begins: both go on, one of BEFORE is gone, or one of AFTER is new."""
        if (i, j) in self.memo:
            return self.memo[i, j]
        first, second = self.first, self.second
        best = (0 if i == len(first) and j == len(second) else IMPOSSIBLE, None)
        if i < len(first) and j < len(second):
            b, a = first[i], second[j]
            if alike(b, a) and (b.kind != "load" or a.result == b.result) and all(bindable(x, y) for x, y in zip(b.ops, a.ops)):
                odd = sum(1 for x, y in zip(b.ops, a.ops) if x != y and x not in self.gone)
                best = min(best, (self.best(i + 1, j + 1)[0] + odd, "both"), key=lambda p: p[0])
        if i < len(first) and first[i].kind in ("load", "store"):
            cost = self.best(i + 1, j)[0] + 10
            best = (cost, "gone") if cost <= best[0] else best
        if j < len(second) and second[j].kind == "load":
            cost = self.best(i, j + 1)[0] + 10
            best = (cost, "new") if cost < best[0] else best
        self.memo[i, j] = best
        return best

    def why(self):
        k = 0
        for a in self.second:
            if a.kind != "load":
                while k < len(self.first) and not alike(self.first[k], a):
                    k += 1
                if k == len(self.first):
                    return No(f"a {a.kind} is made where BEFORE makes none, or comes elsewhere: {a.text}")
                k += 1
        return No("the effects of a block are others")

    def steps(self):
        i = j = 0
        while i < len(self.first) or j < len(self.second):
            how = self.memo[i, j][1]
            yield how, i, j
            i, j = i + (how != "new"), j + (how != "gone")


class Laying:
    """What takes the place of each instruction of BEFORE (`edits`), and the loads that are put in (`inserts`, `fresh`)."""

    def __init__(self, before, after):
        self.before, self.after = before, after
        for fn in (before, after):
            fn.defs = {one.result: one for body in fn.blocks.values() for one in body if one.result}
        if before.params != after.params or before.bits != after.bits or before.result != after.result:
            raise No("other parameters or another result")
        self.take_out_edges()
        reached = self.reached()
        self.check_blocks(reached)
        self.removed, self.edits, self.inserts, self.pairs = {}, {}, {}, []
        for name in before.blocks:  # one that no run of AFTER comes to stays as it is in BEFORE
            if name in reached:
                self.lay(name)
        self.phis = self.lay_phis()
        self.fresh = {one.result: one.result + "!put" if one.result in before.defs else one.result for loads in self.inserts.values() for one in loads}
        self.bound = {}
        self.bind()
        self.unread = self.values()

    def take_out_edges(self):
        """Takes out of AFTER the blocks that an edge got for itself, where they do nothing."""
        blocks = self.after.blocks
        for name, body in list(blocks.items()):
            if name in self.before.blocks:
                continue
            start = [n for n, b in blocks.items() if name in b[-1].key]
            if len(body) != 1 or body[0].kind != "goto" or len(start) != 1:
                kinds = sorted({one.kind for one in body if one.kind in EFFECTS})
                raise No(f"a new block{' with a ' + kinds[0] if kinds else ''}")
            to, last = body[0].key[0], blocks[start[0]][-1]
            last.key = tuple(to if k == name else k for k in last.key)
            for one in blocks[to]:
                if one.kind == "phi":
                    one.key = tuple(start[0] if k == name else k for k in one.key)
            del blocks[name]

    def reached(self):
        """The blocks that a run of AFTER can come to."""
        found, work = set(), [next(iter(self.after.blocks))]
        while work:
            name = work.pop()
            if name in self.after.blocks and name not in found:
                found.add(name)
                last = self.after.blocks[name][-1]
                work += [last.key[0 if last.ops[0] else 1]] if last.kind == "branch" and isinstance(last.ops[0], int) else last.key
        return found

    def check_blocks(self, reached):
        for name, body in self.before.blocks.items():
            if name not in self.after.blocks:
                raise No("a block is gone")
            other = self.after.blocks[name]
            if name in reached and (body[-1].kind, body[-1].key) != (other[-1].kind, other[-1].key):
                raise No("a block ends otherwise")

    def lay(self, name):
        body, after = self.before.blocks[name], self.after
        first = [(n, one) for n, one in enumerate(body) if one.kind in EFFECTS]
        second = [one for one in after.blocks[name] if one.kind in EFFECTS]
        gone = {one.result for one in body if one.kind == "load" and (one.result not in after.defs or after.defs[one.result].kind != "load")}
        gone |= {r for r in self.before.defs if r not in after.defs}
        for how, i, j in Rows([one for _, one in first], second, gone).steps():
            if how == "both":
                self.pairs.append((first[i][1], second[j]))
            elif how == "new":
                at = first[i][0] if i < len(first) else len(body) - 1
                self.inserts.setdefault((name, at), []).append(second[j])
            elif first[i][1].kind == "store":
                self.edits[name, first[i][0]] = None
            else:
                self.removed[first[i][1].result] = (name, *first[i])
        self.pairs.append((body[-1], after.blocks[name][-1]))

    def lay_phis(self):
        """The phis that AFTER has no more; the others are pairs."""
        gone = set()
        for body in self.before.blocks.values():
            for one in body:
                if one.kind == "phi":
                    other = self.after.defs.get(one.result)
                    if other is not None and other.kind == "phi" and set(other.key) == set(one.key):
                        self.pairs.append((one, Instr("phi", one.key, [other.ops[other.key.index(k)] for k in one.key])))
                    else:
                        gone.add(one.result)
        return gone

    def bind(self):
        """Finds the value of each load and phi that is gone, from the operands that now stand where it was read."""
        for b, a in sorted(self.pairs, key=lambda p: 0 if p[0].kind == "use" else 1):
            ops = list(zip(b.ops, a.ops))
            if isinstance(b.where, tuple) and isinstance(a.where, tuple):
                ops.append((b.where[1], a.where[1]))
            for x, y in ops:
                if x in self.removed or x in self.phis:
                    self.bound.setdefault(x, y)
                else:
                    self.unify(tree(self.before, x, self.removed), tree(self.after, y, ()))

    def unify(self, x, y):
        if isinstance(x, str) and (x in self.removed or x in self.phis):
            if x in self.bound:
                return self.bound[x] == y
            if isinstance(y, tuple):
                defs = self.before.defs
                names = [r for r in defs if tree(self.after, r, ()) == y and r in self.after.defs and defs[r].kind == "pure"]
                if not names:
                    return False
                y = names[0]
            self.bound[x] = y
            return True
        if isinstance(x, tuple) and isinstance(y, tuple) and x[0] == y[0] and len(x) == len(y):
            return all([self.unify(a, b) for a, b in zip(x[1:], y[1:])])
        return x == y

    def in_target(self, a):
        """A value of AFTER as a register of the target."""
        if isinstance(a, int) or a in self.after.params:
            return a
        if a in self.fresh:
            return self.fresh[a]
        kind = self.after.defs[a].kind if a in self.after.defs else "value"
        if a in self.before.defs and self.before.defs[a].kind == kind:
            return a
        raise No(f"a load's value comes by a new phi, {self.brought(a)}" if kind == "phi" else f"a load's value is a new {kind}")

    def brought(self, a):
        """What the values of a new phi are."""
        work, seen = [a], set()
        while work:
            b = work.pop()
            one = self.after.defs.get(b) if isinstance(b, str) else None
            if b in seen:
                continue
            seen.add(b)
            if b in self.fresh:
                return "of loads that are put in on some paths"
            if one is not None and one.kind == "phi" and (b not in self.before.defs or self.before.defs[b].kind != "phi"):
                work += one.ops
        return "of values that are known, another on each path"

    def resolved(self, a):
        seen = set()
        while a in self.bound and a not in seen:
            seen.add(a)
            a = self.bound[a]
        return tree(self.before, a, self.removed) if a in self.before.defs else a

    def values(self):
        """Gives each removed load its value: of the atoms with this value one that the location was given, or that a load of it
        gave, since the validator goes by the atom. Returns the loads whose value nobody reads."""
        unread, shape = [], Shape(self.before)
        for r, (name, n, b) in self.removed.items():
            if r not in self.bound:
                self.edits[name, n] = (None, b)
                unread.append(r)
                continue
            value = self.in_target(self.bound[r])
            equal = [a for a in atoms_above(self.before, shape, name, n, b) if a == value or self.resolved(a) == self.resolved(value)]
            self.edits[name, n] = ((equal + [value])[0], b)
        return unread


def atoms_above(fb, shape, name, number, b):
    """What was stored to the location of a load on all paths to it, the nearest first, and then what was loaded from it:
    what is known of a store outlives an acquire."""
    found, loaded = [], []
    for block in sorted(shape.dom.get(name, ()), key=lambda n: -len(shape.dom[n])):
        body = fb.blocks[block]
        for one in reversed(body[:number] if block == name else body):
            if one.kind == "store" and one.where == b.where:
                found.append(one.ops[0])
            if one.kind == "load" and one.where == b.where:
                loaded.append(one.result)
    return found + loaded


def turned(b, value):  # the statements of a turned load
    def walk(body):
        out = []
        for s in body:
            if s[0] == "load":
                out.append(("turned", s[1], value))
            elif s[0] == "if":
                out.append(("if", s[1], walk(s[2]), walk(s[3])))
            else:
                out.append(s)
        return out
    return walk(accessed(b))


def skipped(b):
    def walk(body):
        return [("skip",) if s[0] == "store" else ("if", s[1], walk(s[2]), walk(s[3])) if s[0] == "if" else s for s in body]
    return walk(accessed(b))


def first_difference(first, second, fresh):
    at = next((k for k, (x, y) in enumerate(zip(first, second)) if x != y), min(len(first), len(second)))
    x, y = (lines[at] if at < len(lines) else "the end" for lines in (first, second))
    late = [r for r in fresh.values() if repr(("in", r)) in repr(x)]
    if late:
        return No(f"a load is moved down: {late[0]}")
    return No(f"not the same: {x} as laid along BEFORE, {y} in AFTER")


class Both:
    """Source and target of one function before and after, what was done to it, and notes."""

    def __init__(self, before, after):
        for fn in (before, after):
            if fn.why:
                raise No(fn.why)
        if any(UNDEFINED in one.ops for body in before.blocks.values() for one in body if one.kind != "phi"):
            raise No("an undefined value in BEFORE")
        self.before, self.shape = before, Shape(before)
        laid = Laying(before, after)
        edits, self.fresh = laid.edits, laid.fresh
        self.heads = bare_heads(before, self.shape)
        self.source = Writer(before, self.shape, self.heads).whole()
        self.changes, doubtful = self.changed({key: edit for key, edit in edits.items() if key[0] in self.shape.dom})
        self.puts = {key: [self.put(one) for one in loads] for key, loads in laid.inserts.items()}
        wanted = same_text(*Writer(after, Shape(after), self.heads).whole())
        self.target, found = self.written()
        for key, b, a in doubtful:  # a value that fits too, and that the location was given, tells more
            kept, self.changes[key] = self.changes[key], turned(b, a)
            target, other = self.written()
            if other == wanted:
                self.target, found = target, other
            else:
                self.changes[key] = kept
        if found != wanted:  # (of a turned load whose value nobody reads no line is left)
            raise first_difference(found, wanted, self.fresh)
        self.counts = len(laid.removed), sum(e is None for e in edits.values()), len(self.fresh)
        self.notes = sorted(before.notes) + [f"AFTER reads {r} no more; its load is turned into a copy of some value" for r in laid.unread]
        self.function = before.name, list(before.params), self.source, self.target

    def changed(self, edits):
        changes, doubtful = {}, []
        for (name, n), edit in edits.items():
            b = self.before.blocks[name][n]
            if b.kind == "store":
                changes[name, n] = skipped(b)
                continue
            if not isinstance(b.where, str):
                raise No("a load of an array's cell is gone")
            above = atoms_above(self.before, self.shape, name, n, b)
            value = edit[0] if edit[0] is not None else (above + [0])[0]
            changes[name, n] = turned(b, value)
            if value not in above and value not in self.fresh.values():
                doubtful += [((name, n), b, a) for a in list(dict.fromkeys(above))[:3]]
        return changes, doubtful

    def put(self, one):
        if not isinstance(one.where, str):
            raise No("a load of an array's cell is put in")
        return said(("load", self.fresh[one.result], one.where), one.line)

    def written(self):
        target = Writer(self.before, self.shape, self.heads, self.changes, self.puts).whole()
        return target, same_text(*target)


def compared(before, after, name):
    """Of a function what `Both` knows, or the reason why it isn't comparable."""
    try:
        if name not in after.functions:
            raise No("only in BEFORE")
        if name not in before.functions:
            raise No("only in AFTER")
        Work.done = 0
        both = Both(before.functions[name], after.functions[name])
        program([both.function], before.initial)
        return both
    except RecursionError:
        return "too long"
    except No as why:
        return str(why)
    except (AttributeError, IndexError, KeyError, TypeError, ValueError) as why:  # a text that no reader here thought of
        return f"not understood: {type(why).__name__}: {why}"


def deeply(call, *words):
    """A call with room for functions whose branches lie deep in each other."""
    sys.setrecursionlimit(100000)
    threading.stack_size(512 << 20)
    done = []
    thread = threading.Thread(target=lambda: done.append(call(*words)))
    thread.start()
    thread.join()
    return done[0] if done else 70
