#!/usr/bin/env python3
"""check_docs.py [--write]

Compares docs/ and README.md with the crates. Prints what is missing or stale, one a line, and fails where
there is any:

  missing    a definition that a public contract cites and that docs/DEFINITIONS.md doesn't list in a section
             that names its crate and file; a public function that docs/PROVED.md doesn't name in the section
             of its crate; a fault or a status that docs/ERRORS.md or docs/FORMATS.md doesn't name
  stale      a line quoted in docs/DEFINITIONS.md that stands in no file of specs/; a listed definition that
             isn't in the files that its section names; a name or a file in backticks that stands nowhere in
             the repository; docs/INDEX.md, where it isn't what --write would write
  commands   the launcher's list of commands isn't that of the program
  words      a word that docs/ uses another one for; README.md with 200 lines or more

--write first writes docs/INDEX.md: every definition that a public contract cites, itself or through others,
by crate and file, with the comment that stands above it in specs/.
"""
import glob
import os
import re
import sys

ROOT = os.path.dirname(os.path.dirname(os.path.abspath(__file__)))
CRATES = sorted(os.path.basename(os.path.dirname(p)) for p in glob.glob(os.path.join(ROOT, "crates/*/src")))
PAGES = ["README.md", "docs/ARCHITECTURE.md", "docs/DECISIONS.md", "docs/DEFINITIONS.md", "docs/ERRORS.md"]
PAGES += ["docs/FORMATS.md", "docs/PROVED.md", "docs/TURN.md", "examples/README.md", "bench/README.md"]
COY = ["behind", "want of memory", "memory was wanting", "memory is wanting", "as fine as one likes", "coy"]
# The first line of a definition, which may stand in a module of its file.
DEFINITION = re.compile(r"(?:(?:abbrev|unfoldable) )?pub (?:record |data )?([^\s:(]+)"
                        r"|  (?:(?:abbrev|unfoldable) pub|pub (?:record|data)) ([^\s:(]+)")
WORD = re.compile(r"[^\W\d][\w']*")
TICKED = re.compile(r"`([^`\n]+)`")
# Names in backticks that stand for no name of the repository.
FOREIGN = {"atomic_table", "MEMORY", "finish_non_exhaustive"}
# Functions that each type has, of which no page speaks.
COMMON = {"from", "eq", "new", "len", "is_empty"}


def read(path):
    with open(os.path.join(ROOT, path), encoding="utf-8") as source:
        return source.read()


def files(pattern):
    return sorted(glob.glob(os.path.join(ROOT, pattern), recursive=True))


# ---- definitions


def imports_of(text, keyword):
    """Which name of a file comes from which module: name -> (crate, file, name there)."""
    found = {}
    for crate, module, names in re.findall(keyword + r" Rattle\.(\w+)\.specs\.([\w.]+)\.\{([^}]*)\}", text):
        for name in names.split(","):
            local = name.strip().split(" as ")[-1].strip()
            found[local] = (crate, module, name.strip().split(" as ")[0].strip())
    return found


def definitions():
    """(crate, file) -> name -> its text; (crate, file) -> the names that it imports."""
    texts, imports = {}, {}
    for path in files("crates/*/specs/**/*.antt"):
        crate, rest = path[len(ROOT) + 8 :].split("/specs/")
        file = rest[:-5].replace("/", ".")
        text = open(path, encoding="utf-8").read()
        imports[crate, file] = imports_of(text, r"(?:^|\n)use")
        own, name = {}, None
        for line in text.splitlines():
            head = DEFINITION.match(line)
            if head and not line.startswith("pub mod"):
                name = head.group(1) or head.group(2)
                own[name] = ""
            if name and not line.lstrip().startswith("--"):
                own[name] += line + "\n"
        texts[crate, file] = own
    return texts, imports


def closure(seeds, texts, imports):
    """The seeds, and all definitions that these cite, directly or through others."""
    reached, todo = set(), list(seeds)
    while todo:
        crate, file, name = todo.pop()
        if (crate, file, name) in reached or name not in texts.get((crate, file), {}):
            continue
        reached.add((crate, file, name))
        for word in set(WORD.findall(texts[crate, file][name])):
            if word in texts[crate, file]:
                todo.append((crate, file, word))
            elif word in imports[crate, file]:
                todo.append(imports[crate, file][word])
    return reached


# ---- public contracts


def exported(crate):
    """The names that a crate exports, and the modules that are public as a whole."""
    text = read("crates/%s/src/lib.rt" % crate) if os.path.exists(
        os.path.join(ROOT, "crates", crate, "src/lib.rt")) else ""
    names, modules = set(), set(re.findall(r"^pub mod (\w+);", text, re.M))
    for group in re.findall(r"^pub use ([^;]+);", text, re.M):
        for part in re.sub(r"^[\w:]*?::?\{|\}", "", group).split(","):
            names.update(WORD.findall(part.split("::")[-1]))
    return names, modules


def contract_of(lines, place):
    """The lines of a function's head, up to its body."""
    head = []
    for line in lines[place:]:
        bare = line.strip()
        if head and bare.startswith("{"):
            break
        head.append(line)
        if bare.endswith(";") or (bare.endswith("{") and "ensures" not in bare and "requires" not in bare):
            break
    return "\n".join(head)


def public_functions(crate):
    """(file text, name, contract) of each public function, and of each law of a public trait."""
    names, modules = exported(crate)
    found = []
    for path in files("crates/%s/src/**/*.rt" % crate):
        text = open(path, encoding="utf-8").read().split("#[cfg(test)]\nmod tests {")[0]
        lines, owner, is_trait = text.splitlines(), None, False
        whole = os.path.basename(path)[:-3] in modules
        for place, line in enumerate(lines):
            block = re.match(r"(?:pub )?(trait|impl)\b(.*)", line)
            if block:
                is_trait = block.group(1) == "trait" or " for " in block.group(2)
                owner = set(WORD.findall(block.group(2)))
            elif line.startswith("}"):
                owner, is_trait = None, False
            law = re.match(r"    ghost (\w+): ", line)
            if law and is_trait and owner and owner & names:
                found.append((text, None, line))
            head = re.match(r"(\s*)(pub (?:const )?)?fn (\w+)", line)
            if not head:
                continue
            public = bool(head.group(2))
            if owner is None:
                public = public and (whole or head.group(3) in names)
            else:
                public = (public or is_trait) and bool(owner & names)
            if public:
                found.append((text, head.group(3), contract_of(lines, place)))
    return found


def cited():
    """The definitions that public contracts cite, each as (crate, file, name); and the public functions."""
    seeds, functions = set(), set()
    for crate in CRATES:
        for text, name, contract in public_functions(crate):
            if name:
                functions.add((crate, name))
            known = imports_of(text, r"ghost use")
            clauses = re.split(r"\b(?:requires|ensures|ghost)\b", contract)[1:]
            seeds.update(known[word] for word in WORD.findall(" ".join(clauses)) if word in known)
    return seeds, functions


# ---- pages


def sections(page):
    """The parts of a page between its headings."""
    parts, current = [], []
    for line in read(page).splitlines():
        if line.startswith("#"):
            parts.append(current)
            current = []
        current.append(line)
    return [part for part in parts + [current] if part]


def quoted(part):
    return [line[4:] for line in part if line.startswith("    ")]


def names_of(part):
    """The names that a section lists: in backticks, or at the head of a quoted line."""
    found = set()
    for line in part:
        if line.startswith("    "):
            found.update(WORD.findall(re.sub(r"^\s*(pub )?(record|data|abbrev|unfoldable)? *(pub )?", "", line))[:1])
        else:
            for piece in TICKED.findall(line):
                found.update(WORD.findall(piece))
    return found


def missing_definitions(seeds, texts):
    cited_ones = {seed for seed in seeds if seed[2] in texts.get(seed[:2], {})}
    listed = []
    for part in sections("docs/DEFINITIONS.md"):
        listed.append((names_of(part), set(WORD.findall("\n".join(part)))))
    for crate, file, name in sorted(cited_ones):
        if not any(name in names and crate in words and file.split(".")[-1] in words for names, words in listed):
            yield "missing: docs/DEFINITIONS.md: %s of %s, %s" % (name, crate, file)


def stale_lines():
    """Quoted lines that stand in no file of specs/, wherever that breaks its lines; `..` leaves something out."""
    plain = lambda text: " ".join(text.split())
    every = []
    for path in files("crates/*/specs/**/*.antt"):
        lines = open(path, encoding="utf-8").read().splitlines()
        every.append(plain(" ".join(line for line in lines if not line.lstrip().startswith("--"))))
    for part in sections("docs/DEFINITIONS.md"):
        for line in quoted(part):
            pieces = [plain(piece) for piece in re.sub(r"\s{3,}\(.*\)$", "", line).split("..")]
            pattern = re.compile(".{0,400}?".join(re.escape(piece) for piece in pieces))
            if not any(pattern.search(text) for text in every):
                yield "stale: docs/DEFINITIONS.md quotes what stands in no specs/: %s" % plain(line)


def stale_rows(texts):
    """Rows of tables of definitions whose name isn't in the files that the section names."""
    for part in sections("docs/DEFINITIONS.md"):
        words = set(WORD.findall("\n".join(part)))
        here = set()
        for (crate, file), own in texts.items():
            if crate in words and file.split(".")[-1] in words:
                here.update(own)
        inside = False
        for line in part:
            if line.startswith("| Definition"):
                inside = True
            elif not line.startswith("|"):
                inside = False
            elif inside and not line.startswith("|--") and "| std |" not in line:
                for piece in TICKED.findall(line.split("|")[1]):
                    name = WORD.findall(piece)[:1]
                    if name and name[0] not in here:
                        yield "stale: docs/DEFINITIONS.md: %s isn't in a file of %s" % (name[0], part[0].lstrip("# "))


def names_in_files():
    """Every word of the crates, the scripts and the launcher, and of the paths of their files."""
    known = set()
    for pattern in ("crates/**/*.rt", "crates/**/*.antt", "crates/**/*.edit", "bench/*.py", "docs/*.py", "crates.txt"):
        for path in files(pattern):
            known.update(WORD.findall(open(path, encoding="utf-8").read()))
            known.update(WORD.findall(path[len(ROOT) :]))
    return known | set(WORD.findall(read("solidd")))


def stale_names():
    """Names in backticks, with an underscore or a capital inside, that stand nowhere."""
    known = names_in_files() | FOREIGN
    for page in PAGES:
        for number, line in enumerate(read(page).splitlines(), 1):
            pieces = [] if line.startswith("    ") else TICKED.findall(line)
            for name in WORD.findall(" ".join(p for p in pieces if re.fullmatch(r"[A-Za-z][\w:]*(\(\))?", p))):
                if len(name) > 2 and ("_" in name or name[1:] != name[1:].lower()) and name not in known:
                    yield "stale: %s:%d: %s stands nowhere" % (page, number, name)


def stale_files():
    """Files of crates that a page names and that aren't there."""
    every = [path[len(ROOT) + 1 :] for path in files("crates/**/*.rt") + files("crates/**/*.antt")]
    for page in PAGES:
        for number, line in enumerate(read(page).splitlines(), 1):
            for name in re.findall(r"`([\w./]+\.(?:rt|antt))`", line):
                if not any(("/" + path).endswith("/" + name) for path in every):
                    yield "stale: %s:%d: there is no file %s" % (page, number, name)


def missing_functions(functions):
    parts = {}
    for part in sections("docs/PROVED.md"):
        crate = WORD.findall(part[0])[:1]
        if crate:
            parts.setdefault(crate[0], set()).update(names_of(part))
    for crate, name in sorted(functions):
        if name not in COMMON and name not in parts.get(crate, set()):
            yield "missing: docs/PROVED.md: %s of %s" % (name, crate)


def stale_clauses(texts):
    """Names in a crate's section of docs/PROVED.md that are no clause, function, type or definition there."""
    every = {name for own in texts.values() for name in own} | {"args", "stdin", "stdout", "check", "replay", "u64"}
    for path in files("crates/*/src/**/*.rt"):
        every.update(re.findall(r"\b(?:fn|mod) (\w+)", open(path, encoding="utf-8").read()))
    for part in sections("docs/PROVED.md"):
        crate = (WORD.findall(part[0]) or [""])[0]
        if crate not in CRATES:
            continue
        known = set(every)
        for path in files("crates/%s/src/**/*.rt" % crate):
            text = open(path, encoding="utf-8").read()
            known.update(re.findall(r"\b(?:ensures|requires|ghost) (\w+)", text))
        for line in part:
            for name in TICKED.findall(line):
                if re.fullmatch(r"[a-z]\w*", name) and name not in known and name not in CRATES:
                    yield "stale: docs/PROVED.md: %s is no clause, function or definition of %s" % (name, crate)


def missing_faults():
    """Each variant of a fault type and each status, as printed."""
    pages = {page: set(WORD.findall(read(page))) for page in ("docs/ERRORS.md", "docs/FORMATS.md")}
    for path in files("crates/*/src/**/*.rt"):
        text = open(path, encoding="utf-8").read()
        for kind, body in re.findall(r"pub enum (\w*Fault|Status) \{(.*?)\n\}", text, re.S):
            for variant in re.findall(r"^    (\w+)[,( {]", body, re.M):
                for page, words in pages.items():
                    if variant not in words and variant not in ("Card", "Global", "Directory", "Graph", "File"):
                        yield "missing: %s: %s of %s" % (page, variant, kind)


def commands():
    text = read("crates/solid_top/specs/Commands.antt")
    named = re.search(r"^Names words command.*?\n\n", text, re.M | re.S).group(0)
    wanted = set(re.findall(r'codes "(\w+)"', named))
    given = re.search(r"^commands=\((.*)\)", read("solidd"), re.M).group(1).split()
    if wanted != set(given):
        yield "commands: the launcher has %s, the program %s" % (" ".join(given), " ".join(sorted(wanted)))
    usage = re.search(r"^usage='(.*)'", read("solidd"), re.M).group(1)
    if usage not in text:
        yield "commands: the launcher's usage line isn't the program's"


def words():
    for page in PAGES:
        for number, line in enumerate(read(page).splitlines(), 1):
            for word in COY:
                if re.search(r"\b%s\b" % word, line):
                    yield "words: %s:%d: %s" % (page, number, word)
    count = len(read("README.md").splitlines())
    if count >= 200:
        yield "words: README.md has %d lines" % count


# ---- the index


def comments():
    """(crate, file) -> the file's head; (crate, file, name) -> the comment above a definition."""
    heads, above = {}, {}
    for path in files("crates/*/specs/**/*.antt"):
        crate, rest = path[len(ROOT) + 8 :].split("/specs/")
        file, note = rest[:-5].replace("/", "."), []
        for line in open(path, encoding="utf-8").read().splitlines():
            if line.lstrip().startswith("-- ") and not line.startswith("-- ----"):
                note.append(line.lstrip()[3:])
                continue
            head = DEFINITION.match(line)
            if head and not line.startswith("pub mod"):
                above[crate, file, head.group(1) or head.group(2)] = " ".join(note)
            elif note and line.startswith("use ") and (crate, file) not in heads:
                heads[crate, file] = " ".join(note)
            note = []
    return heads, above


def index(seeds, reached, texts):
    heads, above = comments()
    order = [line.split(":")[0] for line in read("crates.txt").splitlines() if line.split("#")[0].strip()]
    out = ["# Index of definitions", ""]
    out += ["Written by `python3 docs/check_docs.py --write`: every definition that a public contract cites,"]
    out += ["itself or through others, with its comment from specs/. A contract cites those in bold itself;"]
    out += ["[DEFINITIONS.md](DEFINITIONS.md) explains them in reading order."]
    for crate, file in sorted(texts, key=lambda k: (order.index(k[0]) if k[0] in order else 99, k[1])):
        names = [name for name in texts[crate, file] if (crate, file, name) in reached]
        if names:
            out += ["", "## %s, %s" % (crate, file), ""] + ([heads[crate, file], ""] if (crate, file) in heads else [])
        for name in names:
            mark = "**`%s`**" if (crate, file, name) in seeds else "`%s`"
            note = above.get((crate, file, name), "")
            if not note:
                lines = [line for line in texts[crate, file][name].splitlines()[1:] if line.strip()]
                note = "`%s`" % lines[0].strip() if len(lines) == 1 else ""
            out.append("- " + mark % name + (": " + note if note else ""))
    return "\n".join(out) + "\n"


def main():
    texts, imports = definitions()
    seeds, functions = cited()
    reached = closure(seeds, texts, imports)
    wanted = index(seeds, reached, texts)
    path = os.path.join(ROOT, "docs/INDEX.md")
    if "--write" in sys.argv[1:]:
        with open(path, "w", encoding="utf-8") as sink:
            sink.write(wanted)
    found = [*missing_definitions(seeds, texts), *stale_lines(), *stale_rows(texts), *stale_names(), *stale_files()]
    found += [*missing_functions(functions), *stale_clauses(texts), *missing_faults(), *commands(), *words()]
    if not os.path.exists(path) or read("docs/INDEX.md") != wanted:
        found.append("stale: docs/INDEX.md: python3 docs/check_docs.py --write")
    print("\n".join(found + ["%d definitions, %d problems" % (len(reached), len(found))]))
    sys.exit(bool(found))


if __name__ == "__main__":
    main()
