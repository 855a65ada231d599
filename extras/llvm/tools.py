"""Clang, opt and the program, as what judges LLVM's passes calls them."""
import os
import re
import shutil
import subprocess

from read import No, VERSIONS
from text import program

PREPARE = "mem2reg,lowerswitch,loop-simplify,lcssa,instnamer"
PASSES = "early-cse<memssa>,gvn,loop-mssa(licm),gvn,dse"


class Wrong(Exception):
    """What is missing or wrong."""


def run(words, text=None):
    try:
        return subprocess.run(words, input=text, capture_output=True, text=True, check=False)
    except OSError as why:
        raise Wrong(f"{words[0]}: {why.strerror}") from None


def tools():
    """The names of clang and opt, of one version that is read."""
    if os.environ.get("CLANG") and os.environ.get("OPT"):
        return os.environ["CLANG"], os.environ["OPT"]
    found = {"clang": {}, "opt": {}}
    for tool, versions in found.items():
        for name in [tool] + [f"{tool}-{version}" for version in VERSIONS]:
            if shutil.which(name) and (version := re.search(r"version (\d+)\.", run([name, "--version"]).stdout)):
                versions[int(version[1])] = name
    both = [version for version in VERSIONS if version in found["clang"] and version in found["opt"]]
    if both:
        return found["clang"][both[0]], found["opt"][both[0]]
    missing = [tool for tool, versions in found.items() if not set(versions) & set(VERSIONS)]
    raise Wrong(f"no {' and no '.join(missing or ['clang and opt of one version'])} of LLVM {VERSIONS[0]} to {VERSIONS[-1]} on the path "
                "(of Debian: apt-get install clang-14 llvm-14)")


def made(words, text=None):
    """What a command writes that has to end well."""
    done = run(words, text)
    if done.returncode:
        raise Wrong(f"{words[0]} ends with status {done.returncode}:\n{done.stderr.strip()}")
    return done.stdout


def verdict(judge, pair):
    """What `validate` says of a pair."""
    done = run([judge, "validate"], pair)
    answer = done.stdout.strip()
    if done.returncode not in (0, 8) or not answer:
        raise Wrong(f"{judge} validate ends with status {done.returncode}: {answer}{done.stderr.strip()}")
    return answer


def verdicts(judge, functions, initial):
    """The verdict on each function: of many at once where all are accepted, else by halves."""
    if not functions:
        return {}
    try:
        answer = verdict(judge, program(functions, initial))
    except No:  # more than one program holds
        answer = None
    if answer == "accepted" or len(functions) == 1:
        return {function[0]: answer for function in functions}
    half = len(functions) // 2
    return {**verdicts(judge, functions[:half], initial), **verdicts(judge, functions[half:], initial)}


def ready(clang, opt, file):
    """The IR of a C file, ready to be BEFORE."""
    first = made([clang, "-O1", "-Xclang", "-disable-llvm-passes", "-fno-discard-value-names", "-g", "-S", "-emit-llvm", file, "-o", "-"])
    return made([opt, "-S", f"-passes={PREPARE}"], first)


def seqopt():
    """The program's path."""
    top = os.path.join(os.path.dirname(os.path.realpath(__file__)), "..", "..")
    return os.environ.get("SEQOPT") or made([os.path.join(top, "seqopt"), "--where"]).strip()
