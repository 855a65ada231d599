"""The texts of source and target: names, declarations, and a line for each statement, with the line of C where one is known."""
import re

from compare import same_text
from read import No
from write import Said

RESERVED = set("il na atomic fn reg return thread skip load store rlx acq rel acqrel add swap cas print if else while call undef used".split())
# What a program may have: locations of a kind, registers and parameters of a function, functions, statements of a function, blocks in
# one another, bytes.
MOST, REGISTERS, PARAMETERS, FUNCTIONS, STATEMENTS, DEPTH, BYTES = 16, 64, 8, 256, 4096, 32, 1 << 20


def registers(statements, result):
    seen = {}

    def walk(body):
        for s in body:
            parts = s[1:2] if s[0] in ("if", "while") else s[1:]
            for a in parts:
                if isinstance(a, str) and a.startswith("%"):
                    seen.setdefault(a)
            for part in s[2:]:
                if isinstance(part, list):
                    walk(part)
    walk(statements)
    if isinstance(result, str):
        seen.setdefault(result)
    return list(seen)


def spans(statements, result):  # from where to where in the text a register is wanted, loops counted whole
    where, loops, at = {}, [], [0]

    def touch(a):
        if isinstance(a, str) and a.startswith("%"):
            low, high = where.get(a, (at[0], at[0]))
            where[a] = (min(low, at[0]), max(high, at[0]))

    def walk(body):
        for s in body:
            at[0] += 1
            for a in s[1:]:
                if not isinstance(a, list):
                    touch(a)
            if s[0] == "while":
                begin = at[0]
                walk(s[2])
                at[0] += 1
                touch(s[1])
                loops.append((begin, at[0]))
            elif s[0] == "if":
                walk(s[2]), walk(s[3])
    walk(statements)
    at[0] += 1
    touch(result)
    for begin, end in sorted(loops, key=lambda p: p[1] - p[0]):
        for a, (low, high) in where.items():
            if low < begin <= high < end:
                where[a] = (low, end)
    return where


def shared(names, one, other):  # fewer registers, where there are too many: those whose spans don't meet share one
    first, second = spans(*one), spans(*other)
    groups = []
    for a in names:
        for group in groups:
            if all(all(b not in s or a not in s or s[a][1] < s[b][0] or s[b][1] < s[a][0] for s in (first, second)) for b in group):
                group.append(a)
                break
        else:
            groups.append([a])
    return {a: group[0] for group in groups for a in group}


def changed(statement, parts):
    out = Said(parts)
    out.line = getattr(statement, "line", 0)
    return out


def renamed(statements, names):
    def one(p):
        return renamed(p, names) if isinstance(p, list) else names.get(p, p) if isinstance(p, str) and p.startswith("%") else p
    return [changed(s, [one(p) for p in s]) for s in statements]


def words_of(s):
    word = s[0]
    if word in ("copy", "turned"):
        return f"{s[1]} = {s[2]};"
    if word == "op":
        return f"{s[1]} = {s[2]} {'%' if s[3] == 'mod' else s[3]} {s[4]};"
    if word == "load":
        return f"{s[1]} = load {s[2]};"
    if word == "store":
        return f"store {s[1]}, {s[2]};"
    if word == "aload":
        return f"{s[1]} = load {s[2]} {s[3]};"
    if word == "astore":
        return f"store {s[1]} {s[2]}, {s[3]};"
    if word == "update":
        return f"{s[1]} = {s[2]} {s[3]} {s[4]}, {', '.join(map(str, s[5:]))};"
    if word == "call":
        return f"{s[1]} = call {s[2]}({', '.join(map(str, s[3:]))});"
    if word in ("fence", "print"):
        return f"{word} {s[1]};"
    return {"skip": "skip;"}.get(word) or f"{word} {s[1]} {{"


def lines_of(statements, pad="  "):
    out = []
    for s in statements:
        line = getattr(s, "line", 0)
        out.append(pad + words_of(s) + (f" # line {line}" if line else ""))
        if s[0] in ("while", "if"):
            out += lines_of(s[2], pad + "  ")
            if s[0] == "if" and s[3]:
                out += [pad + "} else {"] + lines_of(s[3], pad + "  ")
            out.append(pad + "}")
    return out


def walk_all(statements):
    for s in statements:
        yield s
        for part in s:
            if isinstance(part, list):
                yield from walk_all(part)


class Names:
    """Names of this language for LLVM's, each taken once."""

    def __init__(self, taken=RESERVED):
        self.taken = set(taken)

    def new(self, text):
        word = re.sub(r"\W", "_", text.lstrip("%!"))[:28]
        word = word if re.match(r"[A-Za-z_]", word) else "r" + word
        found, k = word, 0
        while found in self.taken:
            k += 1
            found = f"{word}_{k}"
        self.taken.add(found)
        return found


def depth(statements):
    return max((1 + depth(part) for s in statements for part in s if isinstance(part, list)), default=0)


def check(params, *bodies):
    """That a function stays within the limits of the language."""
    if len(params) > PARAMETERS:
        raise No(f"more than {PARAMETERS} parameters")
    for body, _ in bodies:
        if sum(1 for _ in walk_all(body)) > STATEMENTS:
            raise No(f"more than {STATEMENTS} statements")
        if depth(body) > DEPTH:
            raise No(f"branches and loops more than {DEPTH} deep")


def gathered(functions):
    """The locations of both kinds, the calls with how many values they hand over, and whether there is a fence."""
    plain, atomic, calls, fences = {}, {}, {}, False
    for _, _, source, target in functions:
        for s in list(walk_all(source[0])) + list(walk_all(target[0])):
            if s[0] in ("load", "store"):
                plain.setdefault(s[2] if s[0] == "load" else s[1])
            elif s[0] in ("aload", "update", "astore"):
                atomic.setdefault(s[3] if s[0] == "aload" else s[4] if s[0] == "update" else s[2])
            elif s[0] == "call" and calls.setdefault(s[2], len(s) - 3) != len(s) - 3:
                raise No(f"calls of {s[2]} with other numbers of values")
            fences |= s[0] == "fence"
    mixed = sorted(set(plain) & set(atomic))
    if mixed:
        raise No(f"atomic and other accesses of {mixed[0]}")
    if max(len(plain), len(atomic)) > MOST:
        raise No(f"more than {MOST} locations of one kind")
    return plain, atomic, calls, fences


def located(statements, places, heads):
    out = []
    for s in statements:
        parts = [located(p, places, heads) if isinstance(p, list) else p for p in s]
        at = {"load": 2, "store": 1, "aload": 3, "astore": 2, "update": 4}.get(s[0])
        if at:
            parts[at] = places[parts[at]]
        if s[0] == "call":
            parts[2] = heads[parts[2]]
        out.append(changed(s, parts))
    return out


def named(function, taken):
    """The registers of a function: names for LLVM's, those of the source and those of the target, each listed once."""
    name, params, source, target = function
    old = list(dict.fromkeys(params + registers(*source)))
    fresh = [r for r in registers(*target) if r not in old]
    share = {}
    if len(old) + len(fresh) > REGISTERS:
        share = shared([r for r in old if r not in params], source, target)
        share.update(shared(fresh, source, target))
        for text, result in (source, target):
            if same_text(renamed(text, share), share.get(result, result)) != same_text(text, result):
                raise No(f"more than {REGISTERS} registers")
    every = Names(taken)
    names = {r: every.new(r) if r != "%!used" else "used" for r in dict.fromkeys(share.get(r, r) for r in old + fresh)}
    names.update({r: names[share[r]] for r in share})
    listed = [list(dict.fromkeys(names[r] for r in rs)) for rs in (old, old + fresh)]
    if len(listed[1]) > REGISTERS:
        raise No(f"more than {REGISTERS} registers")
    return names, listed


def program(functions, initial):
    """The texts of both programs; functions are (name, parameters, source, target)."""
    plain, atomic, calls, fences = gathered(functions)
    every = [name for name, *_ in functions]
    every += [c for c in calls if c not in every]
    if len(every) > FUNCTIONS:
        raise No(f"more than {FUNCTIONS} functions")
    for name, params, *bodies in functions:
        check(params, *bodies)
        if calls.get(name, len(params)) != len(params):
            raise No(f"calls of {name} with other numbers of values")
    if wide := [name for name, count in calls.items() if count > PARAMETERS]:
        raise No(f"a call of {wide[0]} with more than {PARAMETERS} values")
    names = Names()
    places = {p: names.new(p) for p in [*plain, *atomic]}
    heads = {p: names.new(p) for p in every}
    texts = [["il 2" if fences else "il 1"] + [f"{kind} {places[p]} = {initial.get(p, 0)};" for kind, ps in (("na", plain), ("atomic", atomic)) for p in ps]
             for _ in range(2)]
    for function in functions:
        name, params, *both = function
        own, listed = named(function, names.taken)
        for out, (body, result), registers_of in zip(texts, both, listed):
            out.append(f"fn {heads[name]}({', '.join(registers_of[:len(params)])}) {{")
            out += [f"  reg {', '.join(registers_of[len(params):])};"] if len(registers_of) > len(params) else []
            out += lines_of(renamed(located(body, places, heads), own))
            out += [f"  return {own.get(result, result)};", "}"]
    for out in texts:
        for c in every[len(functions):]:
            out += [f"fn {heads[c]}({', '.join('p%d' % k for k in range(calls[c]))}) {{ # not in this file", "  return 0;", "}"]
        out.append(f"thread {heads[every[0]]}({', '.join('0' for _ in functions[0][1])});")
    if max(sum(len(line) + 1 for line in out) for out in texts) > BYTES:
        raise No(f"more than {BYTES} bytes")
    return "\n".join(texts[0]) + "\ntarget\n" + "\n".join(texts[1]) + "\n"
