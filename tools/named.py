#!/usr/bin/env python3
"""Looks up what the pages name: each crate, file, function, definition, theorem and edit in `backticks`, each link, and each heading that a page
cites of another; and each crate that a comment of a source names. Where a page says whose a name is ("`crate`: `edit`", "Steps: `act`", "`law`
(`crate`, proofs/File.antt)"), it is looked up there. Prints each that is not there, with file and line. The last line counts.

docs/CHANGES.md, docs/PORT.md and docs/DESIGN-PASS.md are history, and old names may stand there: only their links and the new names of the
first one's map (column "now") are looked up.
"""
import glob
import itertools
import os
import re
import sys

os.chdir(os.path.dirname(os.path.abspath(__file__)) + "/..")
PAGES = ["README.md", "CONTRIBUTING.md", "host/README.md"] + sorted(glob.glob("docs/*.md"))
HISTORY, PASSES = "docs/CHANGES.md", ("docs/PORT.md", "docs/DESIGN-PASS.md")

# Spans that are no names of this tree: words of the languages, placeholders, names of the kit and of libraries.
OTHER = set("""
    &mut &[u8] extern static inline requires ensures axiom use pub mod abbrev unfoldable unfolding record data where u8 u16 u32 u64 usize
    x86-64-v2 NAME NAME.. NAME_whole call_NAME BASE PREFIX PKG_CONFIG_PATH RT_JOBS file: old: new: .. io libc std rt cargo gcc g++ clang python3
    pkg-config memmove memcpy memcmp libsqlite3-dev libssl-dev unsupported-associated-item cond true false none some Type Unit UTF8-1
    librathnodi.a abcd R D P Q A B Option Result for while
""".split())
# Crates to come, to which CONTRIBUTING.md gives names. One that has landed is taken out here.
COMING = set("recording_shift recording_convert meter meter_bound contest contest_play".split())
# The commands of rt. Those over crates, ci and must-fail, take the crates' names; the others go over the crate in whose folder they are called.
VERBS = set("ci must-fail check try test run lib lemma fmt tidy expand plant seed verdict all new doc version help selftest".split())
# Words before a colon that are no file of specs/.
LEADS = {"Stated", "Proved", "Tested"}
COMMANDS = ("rattle-kit", "cd ", "cc ", "valgrind ", "apt-get ", "pkg-config ", "#include", "-")


def read(path):
    with open(path, encoding="utf-8") as file:
        return file.read()


# What the tree declares ---------------------------------------------------------------------------------------------------

CRATES = {path.split("/")[1] for path in glob.glob("crates/*/")}
EDITS = {}  # an edit: the crates that have it
DECLARED = {}  # a name: the crates, or "host", that declare it
IN_FILE = {}  # crates/NAME/specs/X.antt, or proofs/: what it declares
SPECS = {}  # X: what every specs/X.antt declares
ITEMS = {}  # a crate: its functions, types, constants and modules, and what it hands on
WORDS = set()  # all words of the sources
WORD = re.compile(r"[\w₀-₉][\w'₀-₉-]*")
SIGNATURE = re.compile(r"(?:^\s*(?:(?:unfoldable|abbrev|pub|axiom) )*|\()((?:[^\s(){}.;,:]+ )+)(?:\{[^}]*\} )?: |^\s*(?:pub )?(?:record|data) (\S+)", re.M)
ITEM = re.compile(r"\b(?:fn|struct|enum|const|static|mod|type) +(\w+)|\bpub use ([^;]+);")
CODE = re.compile(r"\b(?:fn|struct|enum|const|static|mod|type|let(?: mut)?|define|requires|ensures) +(\w+)|\b(\w+)(?=\s*[:(){=,;\[])")


def take(path, owner, comment, declarations):
    """declares what a source declares, its comments left out"""
    text = re.sub(comment, "", read(path))
    words = WORD.findall(text)
    WORDS.update(words + [word.rstrip("'") for word in words])
    names = {name for found in declarations.findall(text) for part in found for name in part.split()}
    for name in names:
        DECLARED.setdefault(name, set()).add(owner)
    return text, names


for path in glob.glob("crates/*/must-fail/*.edit"):
    EDITS.setdefault(os.path.basename(path)[:-5], set()).add(path.split("/")[1])
for path in glob.glob("crates/*/specs/*.antt") + glob.glob("crates/*/proofs/**/*.antt", recursive=True):
    IN_FILE[path] = take(path, path.split("/")[1], r"--.*", SIGNATURE)[1]
    if "/specs/" in path:
        SPECS.setdefault(os.path.basename(path)[:-5], set()).update(IN_FILE[path])
for path in glob.glob("crates/*/src/**/*.rt", recursive=True):
    owner = path.split("/")[1]
    for item, handed in ITEM.findall(take(path, owner, r"//.*", CODE)[0]):
        ITEMS.setdefault(owner, set()).update([item] if item else WORD.findall(handed))
HOST = [path for kind in ("h", "c", "rs", "py", "mk") for folder in ("include", "bench", "host") for path in glob.glob("%s/**/*.%s" % (folder, kind), recursive=True)]
for path in HOST + ["Makefile"]:
    take(path, "host", r"//.*|/\*[\s\S]*?\*/", CODE)
FILES = {os.path.basename(path) for path in list(IN_FILE) + HOST + glob.glob("host/man/*")}
TARGETS = set(re.findall(r"^([\w-]+):", read("Makefile") + read("host/host.mk"), re.M))


# What a page says ---------------------------------------------------------------------------------------------------------

SPAN = re.compile(r"`([^`]+)`")
LIST = r"((?:`[^`]+`(?:, (?:and (?:beside it )?)?| and )?\s*)+)"
FILE = r"(?:specs|proofs)/\w+\.antt"
passed, failures = 0, []


def look(found, where, what):
    global passed
    if found:
        passed += 1
    else:
        failures.append("%s:%d: %s" % (where + (what,)))


def paths(text):
    """a/{b,c}.d as a/b.d and a/c.d"""
    parts = re.split(r"\{([^}]*)\}", text)
    return ["".join(choice) for choice in itertools.product(*(part.split(",") if i % 2 else [part] for i, part in enumerate(parts)))]


def look_path(text, where, crates):
    """from the root, crates/, the page's folder, or a crate that the paragraph names or `machine`; a bare file name may stand anywhere"""
    roots = ["", "crates/", os.path.dirname(where[0]) + "/"] + ["crates/%s/" % crate for crate in crates | {"machine"}]
    for path in paths(text.replace("NAME", "machine").rstrip("*")):
        look(path in FILES or any(os.path.exists(root + path) for root in roots), where, text)


def look_name(span, where):
    """a name, crate::name, or an expression"""
    words = [word for word in WORD.findall(span) if not word[0].isdigit() and word not in OTHER]
    path = re.search(r"\w+(?:::\w+)+", span)
    if path and path[0].split("::")[0] in CRATES:
        owner, *names = path[0].split("::")
        look(all(name in ITEMS.get(owner, ()) for name in names), where, path[0])
    elif " " in span:
        look(all(word in WORDS for word in words), where, span)
    else:
        look(span in DECLARED or span in CRATES or span in EDITS or all(word in DECLARED for word in words), where, span)


def look_span(span, where, crates):
    command = re.match(r"rt ([\w-]+)(.*)", span)
    if command:
        look(command[1] in VERBS, where, span)
        for name in command[2].split() if command[1] in ("ci", "must-fail") else []:
            look(name in CRATES or name in OTHER, where, "%s (in `%s`)" % (name, span))
    elif span in OTHER or span in COMING or span.startswith(COMMANDS) or '"' in span or not re.search(r"[A-Za-z]{2}", span):
        pass
    elif span.startswith("make "):
        look(span.split()[1] in TARGETS, where, span)
    elif span.startswith("_"):
        look(any(name.endswith(span) for name in DECLARED), where, span)
    elif span.endswith("_"):
        look(any(name.startswith(span) for name in CRATES), where, span)
    elif re.match(r"[\w.{},*-]+(?:/[\w.{},/*-]*|\.(?:antt|md|rs|rt|c|h|py|txt|[13]))(?: |$)", span):
        if not span.startswith(("target/", "PREFIX/")):
            look_path(span.split()[0], where, crates)
    else:
        look_name(span, where)


def look_in(declared, names, where, owner):
    """names that the page says to be in one file"""
    for name in SPAN.findall(names):
        if re.match(r"[\w'◌-]+$", name) and name not in OTHER and name not in CRATES:
            look(name in declared, where, "%s (of %s)" % (name, owner))


def look_edits(crate, names, where):
    """names that the page gives to a crate: its edits, or what it declares"""
    for name in SPAN.findall(names):
        if re.match(r"\w+$", name) and (name in EDITS or "_" in name):
            look(crate in EDITS.get(name, ()) or crate in DECLARED.get(name, ()), where, "%s (of crate %s)" % (name, crate))


def look_links(text, at, page):
    for m in re.finditer(r"\]\(([^)#:]+)\)", text):
        look(os.path.exists(os.path.join(os.path.dirname(page), m[1])), at(m), "link to " + m[1])
    for m in re.finditer(r"(?:docs/|\]\()([A-Z-]+\.md)\)?,\s+\"([^\"]+)\"", text):
        title = re.sub(r"\s+", " ", m[2])
        page = "docs/" + m[1]
        look(os.path.exists(page) and re.search(r"^#+ %s" % re.escape(title), read(page), re.M), at(m), '%s, "%s"' % (page, title))


def look_crates(text, at):
    """what is said to be a crate"""
    for m in re.finditer(r"[Cc]rate (`\w+`)|[Cc]rates " + LIST, text):
        for name in SPAN.findall(m[1] or m[2]):
            look(name in CRATES | COMING, at(m), name + " (said to be a crate)")


def look_text(text, at):
    """a paragraph, or a row of a table"""
    crates = ({span for span in SPAN.findall(text)} | set(re.findall(r"crates/(\w+)/", text))) & CRATES
    for m in SPAN.finditer(text):
        look_span(re.sub(r"\s+", " ", m[1]), at(m), crates)
    for m in re.finditer(r"(?<![\w/`{])(?:specs|proofs|src|docs|tools|host)/[\w{},./-]*\w\.(?:antt|rt|md|c|rs|py)", SPAN.sub(lambda s: " " * len(s[0]), text)):
        look_path(m[0], at(m), crates)
    look_crates(text, at)
    for m in re.finditer(r"`(\w+)`: (?:edits? )?" + LIST, text):
        if m[1] in CRATES:
            look_edits(m[1], m[2], at(m))
    for m in re.finditer(r"(?<![\w/`])([A-Z]\w*[a-z]\w*): " + LIST, text):
        if m[1] not in LEADS:
            look_in(SPECS.get(m[1], ()), m[2], at(m), "specs/%s.antt" % m[1])
    for m in re.finditer(r"`(\w+)`,\s+(%s):\s+%s" % (FILE, LIST), text):
        look_in(IN_FILE.get("crates/%s/%s" % (m[1], m[2]), ()), m[3], at(m), m[2])
    for m in re.finditer(r"(`[^`]+`)\s+\((?:`(\w+)`,\s+)?(%s)\b" % FILE, text):
        owners = {m[2]} if m[2] else crates | {"machine"}
        look_in({name for owner in owners for name in IN_FILE.get("crates/%s/%s" % (owner, m[3]), ())}, m[1], at(m), m[3])
    for m in re.finditer(r"(`[^`]+`),\s+`(crates/\w+/%s)`" % FILE, text):
        look_in(IN_FILE.get(m[2], ()), m[1], at(m), m[2])


def look_cells(cells, head, where):
    """cells of a table whose head says whose they are: crates, or edits of the definitions (`machine`) or of a crate's code"""
    for cell, title in zip(cells, head):
        owner = re.search(r"of the (?:definitions|code \(`(\w+)`\))", title)
        if owner:
            look_edits(owner[1] or "machine", re.sub(r"`\w+`: " + LIST, "", cell), where)
        if title == "crates":
            for name in SPAN.findall(cell):
                look(name in CRATES, where, name + " (said to be a crate)")


def look_page(page):
    text = re.sub(r"^```.*?^```", lambda m: re.sub(r".", "", m[0]), read(page), flags=re.M | re.S)
    head, last, line = [], [], 1
    for block in re.split(r"(\n(?=\|)|\n(?<=\|\n)|\n\n+)", text):
        at = lambda m: (page, line + block[: m.start()].count("\n"))
        cells = [cell.strip() for cell in block.strip("|").split("|")] if block.startswith("|") else []
        look_links(block, at, page)
        if block.startswith("|---"):
            head = last
        elif page != HISTORY and page not in PASSES:
            look_text(block, at)
            look_cells(cells, head, (page, line))
            for m in re.finditer(r"^    make ([\w-]+)", block, re.M):
                look(m[1] in TARGETS, at(m), "make " + m[1])
        elif page == HISTORY:
            for cell, title in zip(cells, head):
                for name in SPAN.findall(cell) if title == "now" else []:
                    look(name in CRATES or name in DECLARED, (page, line), name)
        if block.strip():
            last = cells
        line += block.count("\n")


for page in PAGES:
    look_page(page)
for path in list(IN_FILE) + glob.glob("crates/*/src/**/*.rt", recursive=True):
    text = read(path)
    look_crates(text, lambda m: (path, text[: m.start()].count("\n") + 1))
for crate in sorted(CRATES):
    look(re.search(r"\b%s\b" % crate, read("README.md")), ("README.md", 1), "crate %s is not on this page" % crate)
    look(crate not in COMING, ("tools/named.py", 1), "crate %s has landed: take it out of COMING" % crate)
for failure in failures:
    print("FAILED  " + failure)
if not failures:
    print("ok      what the pages name is there")
print("%d passed, %d failed" % (passed, len(failures)))
sys.exit(1 if failures else 0)
