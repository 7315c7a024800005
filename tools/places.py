"""Counts, in the checkout it is started in, the places that docs/DESIGN-PASS.md speaks of."""
import collections
import re
import subprocess

FILES = subprocess.run(["git", "ls-files", "crates"], capture_output=True, text=True, check=True).stdout.split()
SOURCES = [f for f in FILES if re.search(r"/src/.*\.rt$", f)]
PROOFS = [f for f in FILES if re.search(r"/proofs/.*\.antt$", f)]
TEXTS = {f: open(f).read().split("\n") for f in SOURCES}
LINES = [line for text in TEXTS.values() for line in text]


def lines(pattern):
    return sum(1 for line in LINES if re.search(pattern, line))


def bodies():
    """The functions by their bodies, the engines' names made one, the test program left out."""
    found = collections.defaultdict(list)
    for file, text in TEXTS.items():
        if "/vectors/" in file:
            continue
        for i, line in enumerate(text):
            start = re.match(r"(\s*)(?:pub(?:\(crate\))? |final )*fn (\w+)", line)
            if not start:
                continue
            head = i
            while not re.search(r";$|^(?!\s*(requires|ensures)).*{$", text[head].rstrip()):
                head += 1
            if text[head].rstrip().endswith(";"):
                continue
            end = text.index(start.group(1) + "}", head)
            body = " ".join(" ".join(text[head + 1 : end]).split())
            body = re.sub(r"\b(Scan|Thermometer|KoggeStone|Tree|TokenBus|PackedScan)\b", "E", body)
            if body:
                found[body].append((file, start.group(2)))
    return found


def derives_without(name):
    count = 0
    for text in TEXTS.values():
        for above, line in zip(text, text[1:]):
            if re.match(r"(pub(\(crate\))? )?(struct|enum) ", line) and "derive" in above and name not in above:
                count += 1
    return count


PUB = r"^(pub(\(crate\))? )?"
COUNTS = [
    ("1 enums", lines(PUB + r"enum ")),
    ("1 fields and parameters `number`", lines(r"^    (pub )?number: usize")),
    ("1 constants with a number", lines(PUB + r"const [A-Z_]+: usize = [0-9]+;")),
    ("1 tests of a refusal's number", lines(r"number [!=]= ")),
    ("2 functions with the body of another", sum(len(l) for l in bodies().values() if len(l) > 1)),
    ("3 `while` loops", lines(r"^ *while ")),
    ("3 `loop` loops", lines(r"^ *loop ")),
    ("4 structs and enums without PartialEq", derives_without("PartialEq")),
    ("4 casts by `as`", lines(r" as (u8|u16|u32|u64|usize)\b")),
    ("5 parameters with a place or a length", lines(r"(at|length|written): usize")),
    ("6 arrays in const or static", lines(PUB + r"(const|static) [A-Z_]+: \[")),
    ("7 places that name a group of tests by a kind", lines(r"Group::")),
    ("8 files of answers", sum(1 for f in PROOFS if f.endswith("/Answers.antt"))),
    ("8 lines of proofs", sum(len(open(f).readlines()) for f in PROOFS)),
    ("lines of src", len(LINES) - len(TEXTS)),
]

for what, count in COUNTS:
    print(f"{what:60}{count:6}")
