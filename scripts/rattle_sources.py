"""Reads the sources of the repository: its crates, their functions with the labels of their clauses, and the definitions of
their specs. For the other scripts of this folder."""
import functools
import glob
import os
import re

TOP = os.path.dirname(os.path.dirname(os.path.abspath(__file__)))
CRATES = os.path.join(TOP, "crates")


@functools.lru_cache(None)
def text_of(path):
    with open(path, encoding="utf-8") as file:
        return file.read()


@functools.lru_cache(None)
def crates():
    """Each crate with the crates that it lists, those of the kit too."""
    listed = {}
    for line in text_of(os.path.join(TOP, "crates.txt")).split("\n"):
        line = line.split("#")[0]
        if ":" in line:
            name, rest = line.split(":", 1)
            listed[name.split()[0]] = rest.split()
    return listed


def own(names):
    return [name for name in names if name in crates()]


@functools.lru_cache(None)
def depth(crate):
    """How many crates of the repository the longest chain down from a crate has."""
    return 1 + max([depth(below) for below in own(crates()[crate])], default=0)


def longest_chain():
    crate = max(crates(), key=depth)
    chain = [crate]
    while own(crates()[crate]):
        crate = max(own(crates()[crate]), key=depth)
        chain.append(crate)
    return chain


def sources(crate, folder, ending):
    return sorted(glob.glob(os.path.join(CRATES, crate, folder, "**", "*" + ending), recursive=True))


def short(path):
    return os.path.relpath(path, TOP)


def root_file(crate):
    for name in ("lib.rt", "main.rt"):
        path = os.path.join(CRATES, crate, "src", name)
        if os.path.exists(path):
            return path
    raise SystemExit("the crate %s has no root file" % crate)


def listed(names):
    if not names:
        return "nothing"
    return names[0] if len(names) == 1 else ", ".join(names[:-1]) + " and " + names[-1]


def floor_line_of(floor, below):
    """The line of a crate's root file that says its floor, and on which crates it stands."""
    words = ("//! Floor: %s, on %s." % (floor, listed(below))).split(" ")
    lines, line = [], words[0]
    for word in words[1:]:
        if len(line) + 1 + len(word) > 120:
            lines.append(line)
            line = "//! " + word
        else:
            line += " " + word
    return "\n".join(lines + [line])


FLOOR = re.compile(r"^//! Floor: (\w+)[^.]*\.", re.M)


def floor_of(crate):
    match = FLOOR.search(text_of(root_file(crate)))
    return match.group(1) if match else "?"


def proper_crates():
    """The crates but those that freeze contracts of others."""
    return [crate for crate in crates() if floor_of(crate) != "contracts"]


FUNCTION = re.compile(r"^(?P<front>[ \t]*(?:pub(?:\([a-z]+\))? )?(?:const )?)fn (?P<name>\w+)", re.M)


def functions(path):
    """The functions of a file: name, whether public, its line, the text before it, and its contract's text."""
    text = text_of(path)
    found = list(FUNCTION.finditer(text))
    for match in found:
        body = re.compile(r"^[ \t]*\{|\) *\{$|;$|[>\w\])] \{(?=\n)", re.M)
        end = text.find("\n" + re.match(r"[ \t]*", match.group("front")).group(0) + "{", match.end())
        stop = body.search(text, match.end())
        limit = end if end >= 0 and (stop is None or end < stop.end()) else (stop.end() if stop else len(text))
        public = match.group("front").strip().startswith("pub") and "pub(" not in match.group("front")
        yield match.group("name"), public, text.count("\n", 0, match.start()) + 1, text[: match.start()], text[match.start() : limit]


def labels(contract):
    return re.findall(r"\b(?:ensures|requires) (\w+) \{", contract)


DEFINED = re.compile(
    r"^(?:(?:unfoldable|abbrev|pub|mutual|infix[lr]? \d+)\s+)*(?:record |data )?(?P<name>◌?[^\s:(){}]+)\s*(?:\{[^:]*\}\s*|\([^:]*:[^)]*\)\s*)*:", re.M
)
# a record or data type, whose parameters may have types with brackets
TYPE = re.compile(r"^(?:(?:unfoldable|abbrev|pub|mutual)\s+)*(?:record|data) (?P<name>[^\s:(){}]+)", re.M)
IMPORT = re.compile(r"^(?:ghost |pub )?use Rattle\.(\w+)\.specs\.([\w.]+)\.\{([^}]*)\}", re.M)
WORD = re.compile(r"[\w◌&▸◂≡+<>≤-]+")


class Spec:
    """A file of definitions: what it imports, and the text of each definition."""

    def __init__(self, path):
        self.path = path
        self.imports = {}
        text = text_of(path)
        for crate, module, names in IMPORT.findall(text):
            for name in names.split(","):
                own_name, _, other = name.strip().partition(" as ")
                self.imports[other or own_name] = (crate, module, own_name)
        self.blocks = {}
        for block in re.split(r"\n\s*\n", text):
            code = "\n".join(line for line in block.split("\n") if not line.lstrip().startswith("--") and "use Rattle" not in line)
            for match in [*TYPE.finditer(code), *DEFINED.finditer(code)]:
                self.blocks.setdefault(match.group("name"), code)


@functools.lru_cache(None)
def spec(crate, module):
    path = os.path.join(CRATES, crate, "specs", module.replace(".", "/") + ".antt")
    return Spec(path) if os.path.exists(path) else None


def reached(imports, text):
    """The definitions that a text reaches by its imports: pairs of file and name."""
    todo, seen = [], set()

    def want(table, words):
        for word in words:
            if word in table:
                crate, module, name = table[word]
                if crate in crates() and not module.startswith("declared"):
                    todo.append((crate, module, name))

    want(imports, WORD.findall(text))
    while todo:
        crate, module, name = todo.pop()
        here = spec(crate, module)
        if here is None or (here.path, name) in seen:
            continue
        seen.add((here.path, name))
        block = here.blocks.get(name, "")
        words = WORD.findall(block)
        want(here.imports, words)
        todo.extend((crate, module, word) for word in words if word in here.blocks and word != name)
    return seen


def cites(kind, text):
    """What cites a kind in a file of definitions, by the names under which the file has the kinds; None where it has not this one."""
    names = re.findall(r"declared\.kind\.Kind\.TheVariants as (\w+)", text)
    words = [r"\b%s\.%s\b" % (name, kind) for name in names]
    if re.search(r"declared\.kind\.Kind\.TheVariants\.\{[^}]*\b%s\b" % kind, text):
        words.append(r"(?<![.\w])%s\b" % kind)
    return re.compile("|".join(words)) if words else None


def deciding(kind):
    """The definitions that say where a fault of the kind holds, of the lowest crates, each with its crate: facts where there are some, else functions; laws only tie these."""
    facts, others, with_facts = [], [], set()
    for crate in sorted(crates(), key=lambda crate: (depth(crate), crate)):
        for path in sources(crate, "specs", ".antt"):
            cited = cites(kind, text_of(path))
            if crate == "base_types" or cited is None:
                continue
            for name, block in spec(crate, module_of(crate, path)).blocks.items():
                if name.endswith("Law"):
                    continue
                if cited.search(block) and name[:1].isupper():
                    facts.append((crate, name))
                    with_facts.add(crate)
                elif cited.search(block):
                    others.append((crate, name))
    return (facts + [(crate, name) for crate, name in others if crate not in with_facts])[:3]


def module_of(crate, path):
    return path.split("/%s/specs/" % crate)[1][: -len(".antt")].replace("/", ".")


@functools.lru_cache(None)
def definitions():
    """Each file of definitions by its crate and module."""
    return {(crate, module_of(crate, path)): spec(crate, module_of(crate, path)) for crate in crates() for path in sources(crate, "specs", ".antt")}


def imports_of(path):
    table = {}
    for crate, module, names in IMPORT.findall(text_of(path)):
        for name in names.split(","):
            own_name, _, other = name.strip().partition(" as ")
            table[other or own_name] = (crate, module, own_name)
    return table
