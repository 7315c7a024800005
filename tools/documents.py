"""Checks, at the top of the repository, that the documents say what is there: names of files, functions and edits, links, counted lines,
the example of docs/CALLING.md, and what the heads of Laws files say they promise; and that each theorem is a function. Prints what is
wrong, and ends with status 1 then."""
import glob
import re
import sys

# These tell what was, in the names of then.
HISTORY = {"docs/PORT.md", "docs/DESIGN-PASS.md"}
DOCUMENTS = sorted({"README.md", "examples/README.md", *glob.glob("docs/*.md")} - HISTORY)
SOURCES = [f for f in glob.glob("crates/**/*", recursive=True) if re.search(r"\.(rt|antt)$", f) and "/out/" not in f]
EDITS = {f.split("/")[1] + "/" + f.split("/")[-1][:-5] for f in glob.glob("crates/*/must-fail/*.edit")}
CRATES = {f.split("/")[1] for f in glob.glob("crates/*/src")}
FILES = {f for f in glob.glob("**/*", recursive=True) if "/out/" not in f} | {".ci/run"}
WORDS = set(re.findall(r"\w+", " ".join(open(f).read() for f in SOURCES + ["crates.txt", "show"] + glob.glob("examples/*") + glob.glob("tools/show/*"))))
# words of the toolchain, of the language and of the machine
OUTSIDE = set("anew antt bash ci crates dyn ErrorKind failed FILE getD itoa kit lseek memcpy memset parse passed python3 rattle rt rustc TimedOut TryFrom txt version zip".split())
MACHINE = re.compile(r"rattle-kit-\w+(-plain)?|[0-9a-f]{16}|x86-64(-v\d)?|crates/CRATE/must-fail/NAME.edit|crates/NAME|\.antt")
# the file of each module that is used under another name
MODULES = {}
for source in SOURCES:
    for module, alias in re.findall(r"use Rattle\.([\w.]+) as (\w+)", open(source).read()):
        MODULES.setdefault(alias, "crates/" + module.replace(".", "/") + ".antt")
# a theorem: a function that takes nothing and does nothing, with a clause
THEOREM = re.compile(r"^pub fn (\w+)\(\)\n(?:    ensures (?:\w+ )?\{ .+ \}\n)+\{\n?\}$", flags=re.M)
THEOREMS = {f"{f.split('/')[1]}::{name}" for f in glob.glob("crates/*/src/theorems.rt") for name in THEOREM.findall(open(f).read())}
wrong = []


def is_file(name):
    return any(f == name or f.endswith("/" + name) for f in FILES)


def is_named(token):
    """A file, a folder, an edit, an item of a crate, or words that all stand somewhere in the sources."""
    if MACHINE.fullmatch(token) or is_file(token):
        return True
    item = re.fullmatch(r"(\w+)::(\w+)", token)
    if item and item[1] in CRATES:
        code = " ".join(open(f).read() for f in SOURCES if f.startswith(f"crates/{item[1]}/src/"))
        return token in THEOREMS or bool(re.search(rf"\b(fn|mod|struct|enum|trait|type|const|static) {item[2]}\b", code))
    if "*" in token and "/" in token:
        return bool(glob.glob("crates/*/" + token))
    inside = re.fullmatch(r"([A-Z]\w+)\.(\w+)", token)
    if inside and inside[2] not in ("antt", "md"):
        return inside[1] in MODULES and bool(re.search(rf"^\s*(\w+ )*{inside[2]} ", open(MODULES[inside[1]]).read(), flags=re.M))
    if "/" in token and " " not in token and not token.startswith(("./", "&")):
        crate, _, rest = token.partition("/")
        return is_file(token.rstrip("/")) or token in EDITS or is_file("specs/" + token + ".antt") or is_file(token + ".antt") or (
            crate in CRATES and (is_file(crate + "/must-fail/" + rest + ".edit")))
    if re.search(r"\.(antt|rt|md|in|edit)$", token) and " " not in token:
        return is_file(token)
    parts = re.findall(r"[A-Za-z_]\w*", re.sub(r"(b?\"[^\"]*\"|b?'.')|0[bx]\w+", "", token))
    return all(len(p) < 3 or p in WORDS or p in OUTSIDE or any(e.endswith("/" + p) for e in EDITS) or p in CRATES for p in parts)


def promised(text):
    """The names that a file makes public, at its top and in its module blocks."""
    names, blocks = [], []
    for line in text.split("\n"):
        words = line.strip()
        if not words or words.startswith("--"):
            continue
        indent = len(line) - len(line.lstrip())
        while blocks and indent <= blocks[-1][0]:
            blocks.pop()
        outer = all(kind == "module" for _, kind in blocks)
        if words.startswith(("module ", "pub module ")):
            blocks.append((indent, "module"))
        elif outer and not words.startswith(("use ", "pub use ")):
            name = re.match(r"(?:abbrev |unfoldable )*(pub )?(?:record |data )?([^\s:()]+)\s*(?:[({].*)?:\s", words)
            if name and name[1]:
                names.append(name[2])
            blocks.append((indent, "body"))
    return names


for document in DOCUMENTS:
    text = open(document).read()
    prose = re.sub(r"```.*?```", "", text, flags=re.S)
    wrong += [f"{document}: {token}" for token in sorted(set(re.findall(r"`([^`\n]+)`", prose))) if not is_named(token)]
    for link in re.findall(r"\]\(([^)#]+)[^)]*\)", prose):
        at = "/".join(document.split("/")[:-1] + [link]) if "/" in document else link
        at = re.sub(r"[^/]+/\.\./", "", at)
        if at not in FILES:
            wrong.append(f"{document}: no file {link}")

readme, reading, calling, proved = (open(f).read() for f in ("README.md", "docs/READING.md", "docs/CALLING.md", "docs/PROVED.md"))
# PROVED has every theorem, in the first cell of a row, and no other
listed = {name for row in re.findall(r"^\|([^|]*)\|", proved, flags=re.M) for name in re.findall(r"`(\w+::\w+)`", row)}
wrong += [f"docs/PROVED.md: {name} is no theorem" for name in sorted(listed - THEOREMS)]
wrong += [f"docs/PROVED.md: {name} is missing" for name in sorted(THEOREMS - listed)]
for file in glob.glob("crates/*/src/theorems.rt"):
    if len(re.findall(r"\bfn\b", re.sub(r"//.*", "", open(file).read()))) != len(THEOREM.findall(open(file).read())):
        wrong.append(f"{file}: a function that is no theorem, which takes nothing, does nothing and has a clause")
    root = file.replace("theorems.rt", "lib.rt")
    if "\npub mod theorems;\n" not in open(root).read():
        wrong.append(f"{root}: no line 'pub mod theorems;'")
# and every lemma that is read off a function's code
traces = set(re.findall(r"^\| `(\w+/proofs/[\w/]+)` \| `(\w+)` \|", proved, flags=re.M))
found = {(f.removeprefix("crates/").removesuffix("/Answers.antt"), lemma) for f in SOURCES if f.endswith("/Answers.antt")
         for lemma in re.findall(r"^(\w+) :(?:(?!\n\n).)*?\btrace \(code\.function\)\.body", open(f).read(), flags=re.M | re.S)}
wrong += [f"docs/PROVED.md: {f} has no {lemma} that is read off its code" for f, lemma in sorted(traces - found)]
wrong += [f"docs/PROVED.md: {lemma} of {f} is missing" for f, lemma in sorted(found - traces)]
if readme.count("\n") >= 250:
    wrong.append("README.md has 250 lines or more")
total = 0
believed = []
for row in re.findall(r"^\|[^|]*\|([^|]*`[^|]*specs[^|]*)\| (\d+) \|$", reading, flags=re.M):
    folder, lines = "", 0
    for name in re.findall(r"`([^`]+)`", row[0]):
        if name.endswith("specs"):
            folder = name + "/"
            continue
        folder = name.rpartition("/")[0] + "/" if "/" in name else folder
        believed.append("crates/" + (name if "/" in name else folder + name) + ".antt")
        body = open(believed[-1]).read()
        lines += sum(1 for l in body.split("\n") if not re.match(r"\s*(--.*)?$|use |pub mod |mod ", l))
    total += lines
    if lines != int(row[1]):
        wrong.append(f"docs/READING.md: {row[1]} lines of {row[0].strip()[:40]}, which are {lines}")
if f"{len(believed)} files, {total} lines" not in readme:
    wrong.append(f"README.md: the definitions are {len(believed)} files, {total} lines")
for file in believed:
    for module in re.findall(r"^use Rattle\.(\w+\.specs[\w.]*?)(?:\.\{| as )", open(file).read(), flags=re.M):
        used = "crates/" + module.replace(".", "/") + ".antt"
        if used in SOURCES and used not in believed:
            wrong.append(f"docs/READING.md: {file} uses {used}, which is not listed")
for part in ("src/main.rt", "stdout"):
    if "\n" + open("crates/usage/" + part).read() + "```" not in calling:
        wrong.append(f"docs/CALLING.md: crates/usage/{part} is another")
for file in SOURCES:
    text = open(file).read()
    head = " ".join(l[3:] for l in text.split("use ")[0].split("\n") if l.startswith("-- "))
    listed = re.search(r"Promises (.*?)\. The rest are steps", head)
    if listed and re.findall(r"`([^`]+)`", listed[1]) != promised(text):
        wrong.append(f"{file}: promises {', '.join(promised(text))}")

print("\n".join(wrong) or f"documents: {len(DOCUMENTS)} agree with what is there")
sys.exit(bool(wrong))
