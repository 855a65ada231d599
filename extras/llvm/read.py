"""Reads LLVM's text: the functions of a file as blocks of instructions, whose accesses go to named locations.

A file that isn't such a text is `Unreadable`; a function with something that isn't known here carries the reason in
`why`. Names that LLVM can't have begin with `%!`."""
import re


class Unreadable(Exception):
    """Why a file isn't read."""


class No(Exception):
    """Why a function isn't comparable."""


VERSIONS = range(14, 19)
ORDERS = {"monotonic": "rlx", "acquire": "acq", "release": "rel", "acq_rel": "acqrel"}
NAME = r"[-\w.$]+"
UNDEFINED = "%!undefined"
ATTRIBUTES = re.compile(r"(?<![-\w.$%@])(?:noundef|signext|zeroext|inreg|nonnull|noalias|nocapture|align \d+|dereferenceable\(\d+\)|range\([^)]*\)) +")
FLAGS = re.compile(r"(?:(?:nuw|nsw|exact|disjoint|nneg|samesign) )*")
SILENT = re.compile(r"\b(?:inaccessiblememonly|readnone)\b|memory\((?:none|inaccessiblemem: \w+)\)")
UNSEEN = re.compile(r"llvm\.(?:dbg|lifetime|donothing|experimental\.noalias)")
COMPARES = set("eq ne ugt uge ult ule sgt sge slt sle".split())
ARITHMETIC = set("add sub mul sdiv srem udiv urem and or xor shl lshr ashr".split())
TOP = re.compile(r";|source_filename|target |module asm|%[-\w.$\"]+ = type |@.* = |\$.* = comdat|declare |attributes #|![\w.]* ?|uselistorder|\^\d+ = ")


def wrapped(value, bits=64):
    value &= (1 << bits) - 1
    return value - (1 << bits) if value >> (bits - 1) else value


def type_at(text, types):
    """The type that a text begins with, and what follows."""
    text = text.strip()
    if found := re.match(r"i(\d+)", text):
        kind, rest = ("i", int(found[1])), text[found.end():]
    elif found := re.match(r"ptr\b", text):
        kind, rest = ("pointer", None), text[found.end():]
    elif found := re.match(r"void\b", text):
        kind, rest = ("void",), text[found.end():]
    elif found := re.match(r"\[(\d+) x ", text):
        inner, rest = type_at(text[found.end():], types)
        kind, rest = ("array", int(found[1]), inner), rest.strip()[1:]
    elif text.startswith("{"):
        inner, rest = [], text[1:].strip()
        while not rest.startswith("}"):
            if not rest:
                raise No("a type that doesn't end")
            one, rest = type_at(rest.lstrip(", "), types)
            inner.append(one)
            rest = rest.strip()
        kind, rest = ("struct", tuple(inner)), rest[1:]
    elif found := re.match(r'%[-\w.$"]+', text):
        if found[0] not in types:
            raise No(f"the type {found[0]}")
        kind, rest = types[found[0]], text[found.end():]
    else:
        raise No(f"the type of: {text[:40]}")
    while rest.startswith("*"):
        kind, rest = ("pointer", kind), rest[1:]
    return kind, rest


def split(text):
    """A text at the commas that stand in no brackets."""
    parts, depth, begin = [], 0, 0
    for at, sign in enumerate(text):
        depth += (sign in "([{") - (sign in ")]}")
        if sign == "," and depth == 0:
            parts.append(text[begin:at].strip())
            begin = at + 1
    return parts + [text[begin:].strip()] if text.strip() else []


def bracketed(text):
    """What stands in the brackets that a text begins with, and what follows."""
    depth = 0
    for at, sign in enumerate(text):
        depth += (sign == "(") - (sign == ")")
        if depth == 0:
            return text[1:at], text[at + 1:]
    raise No("brackets")


def atom(text):
    text = ATTRIBUTES.sub("", text).strip()
    if re.fullmatch(r"-?\d+", text):
        return int(text)
    if text in ("true", "false"):
        return int(text == "true")
    if re.fullmatch("%" + NAME, text):
        return text
    if text in ("undef", "poison"):
        return UNDEFINED
    raise No(f"the value {text[:60]}")


def constant(value, bits):
    return value if isinstance(value, str) or bits == 1 else wrapped(value, bits)


def typed(text, types):
    """A value with its type before it: the value, and its bits."""
    kind, rest = type_at(ATTRIBUTES.sub("", text), types)
    if kind[0] != "i":
        raise No(f"a value that is no integer: {text[:60]}")
    if kind[1] > 64:
        raise No(f"more than 64 bits: {text[:60]}")
    return constant(atom(rest), kind[1]), kind[1]


# ---- where a pointer points: a location's name and type, and for a cell by a register the names of all cells and it ----

def place(text, fn):
    text = text.strip()
    if found := re.fullmatch(f"@({NAME})", text):
        if found[1] in fn.module.odd:
            raise No(f"@{found[1]} is {fn.module.odd[found[1]]}")
        if found[1] not in fn.module.globals:
            raise No(f"a pointer to @{found[1]}")
        return found[1], fn.module.globals[found[1]], None
    if text in fn.places:
        return fn.places[text]
    if found := re.match(r"getelementptr (?:inbounds |nuw |nusw )*(?=\()", text):
        return element(split(bracketed(text[found.end():])[0]), fn)
    if found := re.match(r"bitcast (?=\()", text):
        _, rest = type_at(bracketed(text[found.end():])[0], fn.module.types)
        return place(rest[:rest.rindex(" to ")], fn)
    raise No(f"a pointer that isn't constant: {text[:60]}")


def narrowed(name, kind, cells, wanted):
    """A pointer to a whole as one to its first part, which has the wanted type."""
    while kind != wanted and cells is None and kind[0] in ("struct", "array") and kind[-1]:
        name, kind = f"{name}_0", kind[1][0] if kind[0] == "struct" else kind[2]
    return name, kind, cells


def element(parts, fn):
    types = fn.module.types
    source, _ = type_at(parts[0], types)
    _, rest = type_at(parts[1], types)
    name, kind, cells = narrowed(*place(rest, fn), source)
    if kind != source:
        raise No(f"a pointer to another type than that of the location: {rest.strip()[:60]}")
    for number, part in enumerate(parts[2:]):
        index, _ = typed(part, types)
        if number == 0:
            if index != 0:
                raise No("arithmetic with pointers")
        elif kind[0] == "struct":
            name, kind = f"{name}_{index}", kind[1][index]
        elif kind[0] == "array" and isinstance(index, int):
            if not 0 <= index < kind[1]:
                raise No(f"cell {index} of {name}, which has {kind[1]}")
            name, kind = f"{name}_{index}", kind[2]
        elif kind[0] == "array" and cells is None and kind[2][0] == "i":
            if kind[1] > 16:
                raise No(f"@{name} has {kind[1]} cells and an index that isn't constant")
            kind, cells = kind[2], ([f"{name}_{k}" for k in range(kind[1])], index)
        else:
            raise No("a pointer into more than one array")
    return name, kind, cells


# ---- instructions ----

class Instr:
    """An instruction: its kind, what has to be equal of it (`key`), operands, result, location, bits and line of C."""

    def __init__(self, kind, key=(), ops=(), result=None, where=None, bits=64, text="", line=0):
        self.kind, self.key, self.ops, self.result, self.where = kind, key, list(ops), result, where
        self.bits, self.text, self.line = bits, text, line


class Line:
    """A line of a function's body: `word` is the instruction, `rest` what follows it."""

    def __init__(self, text, fn):
        self.fn, self.types, self.text = fn, fn.module.types, text
        found = re.match(f"(%{NAME}) = (.*)", text)
        self.result, body = (found[1], found[2]) if found else (None, text)
        body = re.sub(r"^(?:tail |musttail |notail )", "", body)
        self.word = body.split()[0]
        self.rest = body[len(self.word):].strip()

    def made(self, kind, key=(), ops=(), where=None, bits=64):
        return Instr(kind, key, ops, self.result, where, bits, self.text)

    def no(self, why):
        raise No(f"{why}: {self.text}")

    def order(self, word):
        return ORDERS.get(word) or self.no(f"the order {word}")

    def at(self, text, bits):
        name, kind, cells = narrowed(*place(text, self.fn), ("i", bits))
        if kind != ("i", bits):
            self.no("another type than that of the location")
        return cells or name

    def parts(self, text, count):
        """A text's parts, behind which an alignment may stand and nothing else."""
        parts = split(text)
        if len(parts) < count or any(not re.fullmatch(r"align \d+", part) for part in parts[count:]):
            self.no("not understood")
        return parts

    def pointer(self, text):
        return type_at(text, self.types)[1].strip()


def load(at):
    parts = at.parts(at.rest.removeprefix("atomic "), 2)
    kind, _ = type_at(parts[0], at.types)
    pointer = at.pointer(parts[1])
    if kind[0] != "i":
        at.no("a load of no integer")
    if not at.rest.startswith("atomic "):
        return at.made("load", (), [], at.at(pointer, kind[1]), kind[1])
    pointer, order = pointer.rsplit(" ", 1)
    return at.made("aload", (at.order(order),), [], at.at(pointer, kind[1]), kind[1])


def store(at):
    parts = at.parts(at.rest.removeprefix("atomic "), 2)
    value, bits = typed(parts[0], at.types)
    pointer = at.pointer(parts[1])
    if not at.rest.startswith("atomic "):
        return at.made("store", (), [value], at.at(pointer, bits), bits)
    pointer, order = pointer.rsplit(" ", 1)
    return at.made("astore", (at.order(order),), [value], at.at(pointer, bits), bits)


def atomicrmw(at):
    how, rest = at.rest.split(" ", 1)
    parts = at.parts(rest, 2)
    value, order = parts[1].rsplit(" ", 1)
    value, bits = typed(value, at.types)
    if how == "sub" and isinstance(value, int):
        how, value = "add", wrapped(-value, bits)
    if how not in ("add", "xchg"):
        at.no(f"an update by {how}")
    if how == "add" and bits != 64:
        at.fn.notes.add(f"an update that adds {bits} bits is told as one that doesn't wrap there")
    return at.made("update", ({"add": "add", "xchg": "swap"}[how], at.order(order)), [value], at.at(at.pointer(parts[0]), bits), bits)


def cmpxchg(at):
    how = "weak" if at.rest.startswith("weak ") else "strong"
    if how == "weak":
        at.fn.notes.add("a weak compare-exchange is told as a strong one")
    parts = at.parts(at.rest.removeprefix("weak "), 3)
    expected, bits = typed(parts[1], at.types)
    value, order, other = parts[2].rsplit(" ", 2)
    value, _ = typed(value, at.types)
    order, other = at.order(order), at.order(other)
    if other == "acq" and order in ("rlx", "rel"):
        at.no("a failure order above the success order")
    if other == "rlx" and order in ("acq", "acqrel"):
        at.fn.notes.add("a compare-exchange that misses is told as an acquire too")
    return at.made("update", ("cas", order, other, how), [expected, value], at.at(at.pointer(parts[0]), bits), bits)


def extractvalue(at):  # the only pairs that are read are those of a compare-exchange
    value, index = split(at.rest)
    value = value.split()[-1]
    source = next((one for body in at.fn.blocks.values() for one in body if one.result == value), None)
    if source is None or source.kind != "update" or source.key[0] != "cas":
        at.no("a value that isn't understood")
    if index == "0":
        return at.made("pure", ("copy",), [value], None, source.bits)
    return at.made("pure", ("==",), [value, source.ops[0]], None, 1)


def fence(at):
    return at.made("fence", (at.order(at.rest),))


def call(at):
    found = re.match(rf"(.*?)@({NAME})(\(.*)", at.rest)
    if not found or "asm" in found[1].split():
        at.no("a call of what has no name")
    name, (inside, behind) = found[2], bracketed(found[3])
    if UNSEEN.match(name):
        return None
    if name.startswith("llvm."):
        raise No(f"a call of {name}")
    args = [typed(part, at.types)[0] for part in split(inside)]
    words = behind + "".join(at.fn.module.groups.get(g, "") for g in re.findall(r"#\d+", behind))
    if name in ("print", "use") and len(args) == 1 and SILENT.search(words):
        return at.made(name, (), args)
    if at.result is not None and not re.search(r"\bi\d+ $", found[1]):
        at.no("a call with a result that is no integer")
    return at.made("call", (name,), args)


def phi(at):
    kind, rest = type_at(at.rest, at.types)
    if kind[0] != "i":
        at.no("a phi of no integers")
    pairs = [split(part) for part in re.findall(r"\[(.*?)\]", rest)]
    return at.made("phi", tuple(label.removeprefix("%") for _, label in pairs), [constant(atom(v), kind[1]) for v, _ in pairs], None, kind[1])


def getelementptr(at):
    at.fn.places[at.result] = element(split(re.sub(r"^(?:inbounds |nuw |nusw )+", "", at.rest)), at.fn)


def branch(at):
    if found := re.fullmatch(r"label %(\S+)", at.rest):
        return at.made("goto", (found[1],))
    found = re.fullmatch(r"i1 (\S+), label %(\S+), label %(\S+)", at.rest)
    return at.made("branch", (found[2], found[3]), [atom(found[1])])


def ret(at):
    return at.made("ret", (), [] if at.rest == "void" else [typed(at.rest, at.types)[0]])


def cast(at):
    kind, behind = type_at(at.rest[FLAGS.match(at.rest).end():], at.types)
    value, to = re.fullmatch(r"\s*(\S+) to i(\d+)", behind).groups()
    if kind[0] != "i" or max(kind[1], int(to)) > 64:
        at.no("a cast of no integers up to 64 bits")
    return at.made("pure", (at.word, kind[1], int(to)), [atom(value)], None, int(to))


def freeze(at):
    value, bits = typed(at.rest, at.types)
    return at.made("pure", ("copy",), [value], None, bits)


def select(at):
    parts = split(at.rest)
    (test, bit), (one, bits), (other, _) = (typed(part, at.types) for part in parts)
    if bit != 1:
        at.no("a select by no bit")
    return at.made("pure", ("select",), [test, one, other], None, bits)


def icmp(at):
    how, rest = at.rest[FLAGS.match(at.rest).end():].split(" ", 1)
    left, right = split(rest)
    left, bits = typed(left, at.types)
    right = constant(atom(right), bits)
    if how not in COMPARES:
        at.no("a comparison that isn't known")
    if how in ("ugt", "uge", "sgt", "sge"):
        left, right, how = right, left, how[0] + "l" + how[2]
    return at.made("pure", ("icmp", how, bits), [left, right], None, 1)


def arithmetic(at):
    flags = FLAGS.match(at.rest)
    left, right = split(at.rest[flags.end():])
    left, bits = typed(left, at.types)
    right = constant(atom(right), bits)
    whole = "nsw" in flags[0].split() or bits == 64 or at.word in ("and", "or", "xor")
    if at.word in ("sdiv", "srem", "udiv", "urem") and (not isinstance(right, int) or right == 0):
        return at.made("divide", (at.word, bits, False), [left, right], None, bits)
    return at.made("pure", (at.word, bits, whole), [left, right], None, bits)


KINDS = {"load": load, "store": store, "atomicrmw": atomicrmw, "cmpxchg": cmpxchg, "extractvalue": extractvalue, "fence": fence, "call": call,
         "phi": phi, "getelementptr": getelementptr, "br": branch, "ret": ret, "zext": cast, "sext": cast, "trunc": cast, "freeze": freeze,
         "select": select, "icmp": icmp, **{word: arithmetic for word in ARITHMETIC}}


def instruction(text, fn):
    at = Line(text, fn)
    if at.word not in KINDS:
        at.no("the instruction")
    if "volatile" in text.split():
        at.no("volatile")
    if "syncscope" in text:
        at.no("a scope")
    return KINDS[at.word](at)


# ---- functions and files ----

class Function:
    """A function's parameters, its blocks by their names, and why it isn't comparable, if that is known already."""

    def __init__(self, module, name, line):
        self.module, self.name, self.line = module, name, line
        self.params, self.bits, self.result, self.blocks, self.places = [], [], None, {}, {}
        self.why, self.notes, self.block = None, set(), None

    def begun(self, result, inside):
        self.result = result.split()[-1]
        for part in split(inside):
            value, bits = typed(part, self.module.types)
            if not isinstance(value, str):
                raise No("a parameter without a name")
            self.params.append(value)
            self.bits.append(bits)

    def labelled(self, name):
        if name in self.blocks:
            self.why = self.why or f"a block {name} that is there twice"
        self.block = name
        self.blocks[name] = []

    def take(self, text, line):
        if self.block is None:  # a first block without a name has the number behind the parameters'
            self.labelled(str(sum(p[1:].isdigit() for p in self.params)))
        try:
            if one := instruction(text, self):
                one.line = line
                self.blocks[self.block].append(one)
        except No as why:
            self.why = self.why or str(why)
        except (IndexError, KeyError, ValueError, AttributeError, TypeError):
            self.why = self.why or f"not understood: {text}"

    def ended(self):
        if not self.why:
            self.why = flaw(self)
        if not self.why:
            tidied(self)
            if any(a == UNDEFINED for body in self.blocks.values() for one in body for a in one.ops):
                self.notes.add("an undefined value of a phi is told as a register that nothing gives a value")


def flaw(fn):
    """What is wrong with a text that LLVM itself would refuse: such a text has no meaning that could be compared."""
    given = fn.params + [one.result for body in fn.blocks.values() for one in body if one.result] + list(fn.places)
    if len(given) != len(set(given)):
        return "a value is given twice"
    given = set(given) | {UNDEFINED}
    if not fn.blocks:
        return "no instruction"
    comes = {name: [] for name in fn.blocks}
    for name, body in fn.blocks.items():
        ends = [one.kind in ("goto", "branch", "ret") for one in body]
        if not ends or not ends[-1] or any(ends[:-1]):
            return f"the end of the block {name}"
        for to in body[-1].key:
            if to not in fn.blocks:
                return f"a block {to} that isn't there"
            comes[to].append(name)
    for name, body in fn.blocks.items():
        for one in body:
            ops = one.ops + ([one.where[1]] if isinstance(one.where, tuple) else [])
            missing = [a for a in ops if isinstance(a, str) and a not in given]
            if missing:
                return f"the value {missing[0]}, which nothing gives"
            if one.kind == "phi" and set(one.key) != set(comes[name]):
                return f"a phi for other blocks than come to it: {one.text}"
    return None


def tidied(fn):
    """A phi with one value is a copy, copies are followed, and a block that only one other goes to, and always, is a part of
    that one: so passes tidy, whatever else they do."""
    blocks = fn.blocks
    for body in blocks.values():
        for one in body:
            if one.kind == "phi" and len(set(one.key)) == 1:
                one.kind, one.key, one.ops = "pure", ("copy",), one.ops[:1]
    copies = {one.result: one.ops[0] for body in blocks.values() for one in body if one.kind == "pure" and one.key == ("copy",)}

    def source(a):
        seen = set()
        while a in copies and a not in seen:
            seen.add(a)
            a = copies[a]
        return a
    for name, body in blocks.items():
        blocks[name] = [one for one in body if one.result not in copies]
        for one in blocks[name]:
            one.ops = [source(a) for a in one.ops]
            if isinstance(one.where, tuple):
                one.where = (one.where[0], source(one.where[1]))
    comes = {name: set() for name in blocks}
    for name, body in blocks.items():
        for to in body[-1].key:
            comes[to].add(name)
    entry = next(iter(blocks))
    for name in list(blocks):
        while name in blocks and blocks[name][-1].kind == "goto":
            to = blocks[name][-1].key[0]
            if to in (name, entry) or comes[to] != {name}:
                break
            blocks[name] = blocks[name][:-1] + blocks.pop(to)
            for behind in blocks[name][-1].key:
                comes[behind] = comes[behind] - {to} | {name}
                for one in blocks.get(behind, ()):
                    if one.kind == "phi":
                        one.key = tuple(name if k == to else k for k in one.key)


class Module:
    """A file's types, globals and functions."""

    def __init__(self, path):
        try:
            text = open(path, encoding="utf-8").read()
        except OSError as why:
            raise Unreadable(f"{path}: {why.strerror}") from None
        except UnicodeDecodeError:
            raise Unreadable(f"{path}: no text") from None
        self.path, self.types, self.globals, self.written, self.odd, self.initial, self.functions = path, {}, {}, {}, {}, {}, {}
        self.groups = dict(re.findall(r"^attributes (#\d+) = \{(.*)\}$", text, re.M))
        self.lines = {n: int(line) for n, line in re.findall(r"^!(\d+) = (?:distinct )?!DI(?:Location|Subprogram)\(.*?\bline: (\d+)", text, re.M)}
        self.source = (re.findall(r'^source_filename = "(.*)"$', text, re.M) or [None])[0]
        for version in re.findall(r'^!\d+ = !\{!"[^"]*clang version (\d+)', text, re.M):
            if int(version) not in VERSIONS:
                raise Unreadable(f"{path}: text of LLVM {version}; {VERSIONS[0]} to {VERSIONS[-1]} are read")
        fn = None
        for number, line in enumerate(text.split("\n"), 1):
            fn = self.line(fn, f"{path}:{number}", line.rstrip())
        if fn:
            raise Unreadable(f"{path}: the text ends inside of @{fn.name}")
        if not self.functions:
            raise Unreadable(f"{path}: no function of LLVM's text")

    def line(self, fn, spot, line):
        bare = re.sub(r"\s*;.*$", "", line) if '"' not in line else line
        if fn:
            return self.inside(fn, spot, bare)
        if found := re.match(rf"define (.*?)@({NAME})(\(.*)\{{$", bare):
            return self.define(spot, *found.groups())
        if bare.startswith("define "):
            raise Unreadable(f"{spot}: a function's head that isn't understood")
        if bare and not TOP.match(bare) or bare.startswith("attributes") and not bare.endswith("}"):
            raise Unreadable(f"{spot}: not LLVM's text: {bare[:60]}")
        if found := re.match(r'(%[-\w.$"]+) = type (.*)', bare):
            try:
                self.types[found[1]], _ = type_at(found[2], self.types)
            except No:
                pass
        elif found := re.match(rf"@({NAME}) = (.*)", bare):
            self.location(found[1], found[2])
        return None

    def location(self, name, text):
        self.written[name] = re.sub(r", !\S+ !\d+| #\d+", "", text)
        found = re.match(r"(.*?)\b(?:global|constant) (.*)", text)
        if not found:
            self.odd[name] = "another name for something"
            return
        if "thread_local" in found[1]:
            self.odd[name] = "thread-local"
        try:
            self.globals[name], rest = type_at(found[2], self.types)
            value = rest.split(",")[0].strip()
            self.initial[name] = int(value) if re.fullmatch(r"-?\d+", value) else 0
        except No:
            self.odd[name] = "of a type that isn't known here"

    def define(self, spot, result, name, rest):
        if name in self.functions:
            raise Unreadable(f"{spot}: @{name} is there twice")
        found = re.search(r"!dbg !(\d+)", rest)
        fn = self.functions[name] = Function(self, name, self.lines.get(found[1], 0) if found else 0)
        try:
            fn.begun(result, bracketed(rest)[0])
        except No as why:
            fn.why = str(why)
        return fn

    def inside(self, fn, spot, bare):
        if bare == "}":
            fn.ended()
            return None
        if re.match(r"define |declare |attributes #|source_filename", bare):
            raise Unreadable(f"{spot}: @{fn.name} doesn't end")
        if found := re.fullmatch(rf'("?{NAME}"?):', bare):
            fn.labelled(found[1])
        elif bare.strip() and not bare.strip().startswith("#dbg_"):
            found = re.search(r", !dbg !(\d+)", bare)
            fn.take(re.sub(r", ![\w.]+ !\d+", "", bare.strip()), self.lines.get(found[1], 0) if found else 0)
        return fn


def different(before, after):
    """Why two files aren't one module before and after a pass, or None."""
    if before.source and after.source and before.source != after.source:
        return f"different modules, of {before.source} and {after.source}"
    for name, kind in before.types.items():
        if after.types.get(name, kind) != kind:
            return f"different modules: the type {name} is another"
    for name, text in before.written.items():
        if name in after.written and (after.globals.get(name), after.initial.get(name)) != (before.globals.get(name), before.initial.get(name)):
            return f"different modules: @{name} is another"
    if not set(before.functions) & set(after.functions):
        return "different modules: no function is in both"
    return None


def modules(paths):
    """The modules of two files, before and after."""
    before, after = (Module(path) for path in paths)
    if why := different(before, after):
        raise Unreadable(why)
    return before, after
