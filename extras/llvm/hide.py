"""Hides the atomic accesses and fences of LLVM's text from its passes: each stands behind a call that is said to reach no
memory of the program, so that passes go across it as if it had no order; then the accesses are put back. What comes out is
what a compiler would make that doesn't know their orders."""
import re

VALUE = r"%[-\w.$]+|-?\d+"
QUIET = {False: "inaccessiblememonly nounwind willreturn", True: "memory(inaccessiblemem: readwrite) nounwind willreturn"}


def arguments(word, body):
    """The types and values that an access takes from registers or as constants."""
    if word == "store atomic":
        return re.findall(rf"store atomic (i\d+) ({VALUE}),", body)
    if word == "atomicrmw":
        return re.findall(rf", (i\d+) ({VALUE}) ", body)
    return re.findall(rf", (i\d+) ({VALUE})(?=,| )", body) if word == "cmpxchg" else []


def hidden(text, later=False):
    """A text with its accesses hidden, and what stands behind each call; `later` is the form of LLVM 16 and later."""
    out, back, declared = [], {}, []
    for line in text.split("\n"):
        bare = re.sub(r", !\S+ !\d+", "", line)
        found = re.match(r"\s+(?:(%[-\w.$]+) = )?((?:load|store) atomic|atomicrmw|cmpxchg|fence)\b(.*)", bare)
        if not found:
            out.append(line)
            continue
        result, word = found[1], found[2]
        kind = re.search(r"\bi\d+\b", found[3])[0] if result else "void"
        kind = f"{{ {kind}, i1 }}" if word == "cmpxchg" else kind
        body = bare.strip().removeprefix(f"{result} = ")
        args = arguments(word, body)
        for number, (t, v) in enumerate(args):
            body = re.sub(rf"\b{t} {re.escape(v)}(?=[, ])", f"{t} ARGUMENT{number}", body, count=1)
        name = f"hidden.{len(back)}"
        debug = re.search(r", !dbg !\d+", line)
        back[name] = body
        declared.append(f"declare {kind} @{name}({', '.join(t for t, _ in args)}) {QUIET[later]}")
        out.append(f"  {result + ' = ' if result else ''}call {kind} @{name}({', '.join(t + ' ' + v for t, v in args)}) {QUIET[later]}{debug[0] if debug else ''}")
    return "\n".join(out + declared), back


def shown(text, back):
    """A text with the accesses put back in the place of their calls."""
    out = []
    for line in text.split("\n"):
        if found := re.match(r"(\s+(?:%[-\w.$]+ = )?)(?:tail )?call .*?@(hidden\.\d+)\((.*?)\)", line):
            body = back[found[2]]
            for number, arg in enumerate(a for a in found[3].split(", ") if a):
                body = body.replace(f"ARGUMENT{number}", arg.split()[-1])
            debug = re.search(r", !dbg !\d+", line)
            line = found[1] + body + (debug[0] if debug else "")
        if not line.startswith("declare") or "@hidden." not in line:
            out.append(line)
    return "\n".join(out)
