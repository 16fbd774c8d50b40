#!/usr/bin/env python3
"""Lists the places in src/ that could take a plainer form, point by point, and counts them.

    tools/places.py [COMMIT]        the sources of a commit, or those of the work tree

What it finds are places to look at: docs/DESIGN-PASS.md says of each point what was changed and what stays, and why.
"""
import collections
import re
import subprocess
import sys

# Names of cases that stand for 'no value', or for a refusal.
NONE = "Absent|Bad|Broken|Full|Malformed|Nothing|Nowhere|Other|Refused|Unfit|Unsound|Wrong"
# Numbers that stand for a kind or a refusal.
CODES = "number|operation|phase|place"
# Functions that compare, copy, convert or print by hand, by the way they are named here.
BY_HAND = "lesser|at_most|copy_|copied|fill|zeroed|poke|put_hex|put_aligned|put_text|put_word|word_of|refused|changed|done|asked|counted|paged|rowed|tailed|tell|letter_of|digit_of|number_of|place_number|place_word"


def sources(commit):
    """Returns each source file's text by its path."""
    where = ["crates/*/src/*.rt", "crates/*/src/**/*.rt"]
    if commit is None:
        names = subprocess.run(["git", "ls-files", *where], capture_output=True, text=True, check=True).stdout.split()
        return {name: open(name, encoding="utf-8").read() for name in names}
    names = subprocess.run(["git", "ls-tree", "-r", "--name-only", commit], capture_output=True, text=True, check=True).stdout.split()
    names = [it for it in names if re.fullmatch(r"crates/\w+/src/.*\.rt", it)]
    show = lambda it: subprocess.run(["git", "show", f"{commit}:{it}"], capture_output=True, text=True, check=True).stdout
    return {name: show(name) for name in names}


def bare(text):
    """Returns the text without its comments."""
    return re.sub(r"(?m)//.*$", "", text)


def functions(text):
    """Yields each function's name, its parameters, its clauses and its body."""
    head = r"(?ms)^( *)(?:pub(?:\(crate\))? )?(?:extern \"C\" )?fn (\w+)(?:<.*?>)?\((.*?)\)((?: -> [^{\n]*)?)"
    for it in re.finditer(head + r"((?:\n +(?:requires|ensures)[^\n]*(?:\n {5,}[^\n]*)*)*)(?:\n\1| )\{\n(.*?)^\1\}$", text):
        yield it[2], it[3], it[5] + "\n", it[6]


def enums(files):
    for path, text in files.items():
        for it in re.finditer(r"(?ms)enum (\w+) \{\n(.*?)^\}", bare(text)):
            cases = re.findall(r"(?m)^ +(\w+)(.*?),?$", it[2])
            failing = [name for name, _ in cases if re.fullmatch(NONE, name)]
            if failing and len(failing) < len(cases):
                yield f"{path}: enum {it[1]} {{ {', '.join(name + more for name, more in cases)} }}"


def codes(files):
    for path, text in files.items():
        for name, given, _, _ in functions(bare(text)):
            for it in re.findall(rf"\b({CODES}): u(?:32|64)", given):
                yield f"{path}: fn {name}({it})"
        for it in re.finditer(r"(?ms)struct (\w+) \{\n(.*?)^\}", bare(text)):
            for field in re.findall(rf"\b({CODES}): u(?:32|64)", it[2]):
                yield f"{path}: struct {it[1]}.{field}"


def twins(files):
    """Functions whose bodies are the same, names and numbers aside."""
    alike = collections.defaultdict(list)
    for path, text in files.items():
        for name, _, _, body in functions(bare(text)):
            words = re.findall(r"\w+|[^\w\s]", body)
            keep = {"if", "else", "match", "return", "while", "for", "let", "mut"}
            shape = tuple(it if it in keep or not re.match(r"\w", it) else "_" for it in words)
            if len(shape) >= 24:
                alike[shape].append(f"{path.split('/')[1]}::{name}")
    for group in alike.values():
        if len(group) > 1:
            yield " = ".join(group)


def loops(files):
    for path, text in files.items():
        for name, _, _, body in functions(bare(text)):
            for it in re.findall(r"while ([^{]*?) \{", body):
                yield f"{path}: fn {name}: while {it}"


def by_hand(files):
    for path, text in files.items():
        for name, _, _, _ in functions(bare(text)):
            if re.match(rf"(?:{BY_HAND})", name):
                yield f"{path}: fn {name}"


def clauses(files):
    """Parts of a requires that stand in the contracts of three functions or more."""
    seen = collections.defaultdict(set)
    for path, text in files.items():
        for name, _, said, _ in functions(bare(text)):
            for it in re.findall(r"(?s)requires (?:\w+ )?\{ (.*?) \}\n", said):
                for part in re.split(r" × ", re.sub(r"\s+", " ", it)):
                    part = part.strip()
                    part = part[1:-1] if part.startswith("(") and part.endswith(")") else part
                    seen[part].add(f"{path}:{name}")
    for part, users in sorted(seen.items(), key=lambda it: -len(it[1])):
        if len(users) >= 3:
            yield f"{len(users)} contracts: {part}"


def together(files):
    """Two parameters, by name and type, that three functions or more take side by side."""
    seen = collections.Counter()
    for text in files.values():
        for _, given, _, _ in functions(bare(text)):
            names = [re.sub(r"<'a>|'a |\bmut ", "", it.strip()) for it in re.sub(r"\s+", " ", given).split(",") if it.strip()]
            for a, b in zip(names, names[1:]):
                seen[a, b] += 1
    for (a, b), n in seen.most_common():
        if n >= 3:
            yield f"{n} functions: {a}, {b}"


def buffers(files):
    """Functions that fill a lent slice and give how much of it they filled, or take a length beside a slice."""
    for path, text in files.items():
        for it in re.finditer(r"(?ms)fn (\w+)[^(]*\(([^{]*?)\) -> usize", bare(text)):
            if re.search(r"(?:out|over|line|keys|entries|buffer): &mut \[", it[2]):
                yield f"{path}: fn {it[1]} gives how much of a slice it filled"
        for name, given, _, _ in functions(bare(text)):
            if re.search(r"\[u8\],\s+(?:n|held): usize", given):
                yield f"{path}: fn {name} takes a slice and a length"


def switches(files):
    for path, text in files.items():
        for name, given, _, body in functions(bare(text)):
            if re.search(r"\bcrumbs: bool", given):
                yield f"{path}: fn {name}: which kind of bucket"
            for it in sorted(set(re.findall(r"\b(phase|operation) ==|match (operation)\b", body))):
                yield f"{path}: fn {name}: which {''.join(it)}"


POINTS = [
    ("1a. enums with a case for 'no value' or a refusal", enums),
    ("1b. numbers for kinds or refusals", codes),
    ("2. functions with the same body, names and numbers aside", twins),
    ("3. `while` loops", loops),
    ("4. comparing, copying, converting, printing by hand", by_hand),
    ("5a. facts that three contracts or more ask for", clauses),
    ("5b. parameters that travel together", together),
    ("6. a length beside a buffer", buffers),
    ("7. switches on a kind or a step", switches),
]


def main():
    files = sources(sys.argv[1] if len(sys.argv) > 1 else None)
    counts = []
    for title, find in POINTS:
        found = list(find(files))
        counts.append(f"{len(found):4} {title}")
        print(f"== {title}: {len(found)}", *found, "", sep="\n")
    print(*counts, sep="\n")


main()
