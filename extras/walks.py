"""What the scripts of this folder share: the program's answers, reports in parts, and what a thread may do next. A refusal goes to
the error stream, and ends the script with the program's status."""
import os
import re
import subprocess
import sys

PICKED = re.compile(r"[rw](rlx|acq|rel)$|[um](rlx|acq|rel|acqrel)$")


def program():
    top = os.path.join(os.path.dirname(os.path.realpath(__file__)), "..")
    return os.environ.get("SEQOPT") or subprocess.run([top + "/seqopt", "--where"], stdout=subprocess.PIPE, text=True, check=True).stdout.strip()


def stop(name, why, status=1):
    print(f"{name}: {why}", file=sys.stderr)
    sys.exit(status)


def start(main):
    """Runs a script with its words. Whoever reads its output may stop."""
    try:
        main(sys.argv[1:])
        sys.stdout.flush()
    except BrokenPipeError:
        os.dup2(os.open(os.devnull, os.O_WRONLY), sys.stdout.fileno())
    except KeyboardInterrupt:
        sys.exit(130)


def read(name, path):
    """The text of a file, or of standard input where it is `-`."""
    try:
        with sys.stdin.buffer if path == "-" else open(path, "rb") as file:
            return file.read()
    except OSError as error:
        stop(name, f"{path}: {error.strerror}")


def number(name, word, least, most):
    if not re.fullmatch(r"\d+", word) or not least <= int(word) <= most:
        stop(name, f"{word} is no number from {least} to {most}", 2)
    return int(word)


def threads_of(text):
    return len(re.findall(rb"(?m)\bthread\s+[A-Za-z_]", re.sub(rb"#[^\n]*", b"", text)))


class Runner:
    """Walks of one text."""
    def __init__(self, text, steps=1000):
        self.program, self.text, self.steps, self.made = program(), text, str(steps), 0

    def walk(self, *words):
        """The entries of a walk, each a list of words, the ending, and the outputs."""
        self.made += 1
        got = subprocess.run([self.program, "walk", "--steps", self.steps, *words], input=self.text, stdout=subprocess.PIPE, check=False)
        answer = got.stdout.decode("latin-1")
        if got.returncode not in (0, 6, 7):
            print(answer.strip() or f"status {got.returncode}", file=sys.stderr)
            sys.exit(got.returncode)
        lines = answer.split("\n")
        begin = lines.index("journal") + 1
        end = next(k for k in range(begin, len(lines)) if lines[k].startswith("end "))
        return [line.split() for line in lines[begin:end]], lines[end][4:], lines[lines.index("outputs") + 1:-1]

    def litmus(self, seed, seeds):
        """The outcomes of so many seeds: of each how many of them have it, the least, its entries and its ending."""
        words = ["litmus", "--steps", self.steps, "--seed", str(seed), "--seeds", str(seeds)]
        got = subprocess.run([self.program, *words], input=self.text, stdout=subprocess.PIPE, check=False)
        answer = got.stdout.decode("latin-1")
        if got.returncode != 0:
            print(answer.strip() or f"status {got.returncode}", file=sys.stderr)
            sys.exit(got.returncode)
        found = []
        for part in ("\n" + answer).split("\noutcome ")[1:]:
            lines = part.rstrip("\n").split("\n")
            count, least = map(int, lines[0].split())
            entries = lines[lines.index("journal") + 1:lines.index("source")]
            found.append((count, least, [line.split() for line in entries], lines[1][4:]))
        return found

    def alone(self, order, picks, thread, pick):
        """What the thread does behind this beginning, whose turns all make an entry, if it goes on alone: with this pick, and then 0."""
        turns = (order + [thread] * 32)[:4096]
        entries, _, _ = self.walk("--order", ",".join(map(str, turns)), "--picks", ",".join(map(str, picks + [pick])))
        alone = entries[len(order):len(turns)]
        return [e for k, e in enumerate(alone) if all(int(it[0]) == thread for it in alone[:k + 1])]

    def candidates(self, order, picks, thread, found, most=1 << 32):
        """What the thread may do behind this beginning, for pick 0, 1 and so on; the first are those of `found`."""
        while len(found) < most and not (found and not is_picked(found[0][0])):
            alone = self.alone(order, picks, thread, len(found))
            if found and alone[0] == found[0][0]:
                break
            found.append(alone)
        return found


def is_picked(entry):
    """Whether an entry takes a pick: an access of an atomic location does."""
    return bool(PICKED.match(entry[2])) or entry[2:4] == ["fail", "compare"]


def location(entry):
    """The location that an entry is about, or nothing."""
    return entry[-2] if entry[2:4] == ["fail", "compare"] else entry[3] if is_picked(entry) or entry[2] in ("rna", "wna") else None


def seen(entry):
    """The newest timestamp of its location that the thread has seen with this entry, an access of an atomic location."""
    return int(entry[-1])


def words_of(entries):
    """The entries in words, a line each."""
    text = "journal\n" + "".join(" ".join(entry) + "\n" for entry in entries) + "end done\n"
    said = subprocess.run([os.path.join(os.path.dirname(os.path.realpath(__file__)), "words")], input=text, stdout=subprocess.PIPE, text=True, check=True)
    return [line.strip() for line in said.stdout.splitlines()[:-1]]
