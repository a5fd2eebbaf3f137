"""By which clause a wrong body is refused: the file `clauses.md` beside the edits says which is meant, and the prover's text which it was."""
import glob
import os
import re

from rattle_sources import CRATES, TOP, functions, text_of

CLAUSES = "clauses.md"
# stands in it for what a loop keeps
LOOP = "loop"
# what the prover says of a goal that a search left open: its place, what it is about, and its name
OPEN = re.compile(r"(src/[\w/]+\.rt):(\d+):\d+: (?:error[^:]*: )?it is not proved that ([^(]*)\(`([^`]+)`\)")
RETURNS = "what the function ensures holds when it returns"
# what it says of a goal that a file of answers no longer proves
ANSWERED = re.compile(r"proofs/([\w/+]+)/\w+\.antt:\d+:\d+: error: `([\w+-]+)`")


def meant(folder):
    """Of each edit of a folder the function and the clauses that are to refuse it, by a line `EDIT: MODULE::FUNCTION CLAUSE..`: `-` for one without a
    label, `loop` for what a loop of the function keeps, and `CALL-requires..`, as the prover names it, for what an inner call asks for."""
    path, told = os.path.join(folder, CLAUSES), {}
    for line in text_of(path).split("\n") if os.path.isfile(path) else ():
        edit, _, rest = line.partition(": ")
        if rest:
            told[edit] = (rest.split()[0], rest.split()[1:])
    return told


def unfit(edit, crate_folder):
    """Why a wrong body can't be made of a crate's files, or None: each line `old:` stands once in the file that a line `file:` before it names."""
    path, old, texts = None, None, {}
    for line in text_of(edit).split("\n"):
        word, _, rest = line.partition(":")
        if word == "file":
            path = os.path.join(crate_folder, rest.strip())
            if not os.path.isfile(path):
                return "there is no file %s" % rest.strip()
            texts.setdefault(path, text_of(path))
        elif word == "old":
            old = rest[1:]
        elif word == "new":
            if not path or not old or texts[path].count(old) != 1:
                return "its old text isn't once in the file: %s" % old
            texts[path] = texts[path].replace(old, rest[1:])
            old = None
    return None if texts else "it changes nothing"


def all_unfit():
    """Each complaint of the wrong bodies of wrong/ and of the crates' folders must-fail."""
    for edit in sorted(glob.glob(os.path.join(TOP, "wrong", "*", "*.edit")) + glob.glob(os.path.join(CRATES, "*", "must-fail", "*.edit"))):
        names = os.path.relpath(edit, TOP).split(os.sep)
        why = unfit(edit, os.path.join(CRATES, names[1]))
        if why:
            yield "%s:1: %s" % ("/".join(names), why)


def noted(folder, edit, clauses, others):
    """Writes a line for an edit, of the first function that its refusal leaves open."""
    loops = [(name, LOOP) for name, goal in others if goal.startswith("loop-")]
    if clauses + loops:
        function = (clauses + loops)[0][0]
        labels = list(dict.fromkeys(label for name, label in clauses + loops if name == function))
        path = os.path.join(folder, CLAUSES)
        lines = text_of(path).split("\n")[:-1] if os.path.isfile(path) else []
        with open(path, "w", encoding="utf-8") as file:
            file.write("\n".join(sorted([*lines, "%s: %s %s" % (edit, function, " ".join(labels))])) + "\n")
        text_of.cache_clear()


def wrong_bodies(crate, function):
    """The wrong bodies that a call's clauses are to refuse, each by its file and these clauses, those of the gate first."""
    found = []
    for folder in [*sorted(glob.glob(os.path.join(CRATES, "*", "must-fail"))), os.path.join(TOP, "wrong", crate)]:
        here = os.path.basename(os.path.dirname(folder))
        for edit, (place, wanted) in sorted(meant(folder).items()):
            module, _, name = place.rpartition("::")
            is_frozen = module.split("::")[0].startswith(crate) and (name == function or name.endswith("_" + function))
            if is_frozen if here.endswith("_contracts") else name == function and crate in (here, os.path.basename(folder)):
                found.append((os.path.relpath(os.path.join(folder, edit + ".edit"), TOP), wanted))
    return found


def contracts_in(path):
    """The functions of a file, each with the line at which its comments begin and the labels of what it ensures."""
    for name, _public, line, front, contract in functions(path):
        above = front.rstrip(" \t").split("\n")[:-1]
        while above and above[-1].lstrip().startswith(("///", "//", "#[")):
            above.pop()
            line -= 1
        yield line, name, re.findall(r"(?m)^\s*ensures (\w+|(?=\{))", contract)


def clause_of(goal, ensured):
    """The clause that a goal's name tells: where it tells none, that of a function with one clause alone, which may have no label."""
    found = re.search(r"-clause-(\w+)", goal)
    return found[1] if found else ensured[0] or "-" if len(ensured) == 1 else None


def opened(crate_folder, text):
    """The clauses that a refusal leaves open, each as function and label, and what else it leaves open."""
    clauses, others = [], []
    for path, line, what, goal in OPEN.findall(text):
        module = os.path.splitext(path)[0][len("src/") :].replace("/", "::")
        here = [it for it in contracts_in(os.path.join(crate_folder, path)) if it[0] <= int(line)]
        name, ensured = here[-1][1:] if here else ("?", [])
        found = clause_of(goal, ensured) if what.strip() == RETURNS else None
        (clauses if found else others).append(("%s::%s" % (module, name), found or goal))
    for place, goal in ANSWERED.findall(text):
        parts = place.split("/")
        files = ["/".join(parts[:much]) for much in range(len(parts) - 1, 0, -1)]
        module = next((it for it in files if os.path.isfile(os.path.join(crate_folder, "src", it + ".rt"))), None)
        name = parts[-1].lstrip("+")
        ensured = [it[2] for it in contracts_in(os.path.join(crate_folder, "src", module + ".rt")) if it[1] == name] if module else []
        module = (module or "?").replace("/", "::")
        found = clause_of(goal, ensured[0] if ensured else []) if goal.startswith("returns") else None
        (clauses if found else others).append(("%s::%s" % (module, name), found or goal))
    return clauses, others


def judged(edit, told, clauses, others):
    """What is wrong with a refusal that leaves these open, or nothing."""
    if not clauses and not others:
        return "the refusal is silent, so no contract was tried"
    if edit not in told:
        return "no line of %s says which clause is to refuse it" % CLAUSES
    function, wanted = told[edit]
    if any(name == function and label in wanted for name, label in clauses):
        return None
    # (a wrong line inside a body may break what an inner call asks for)
    if any(name == function and "-requires" in goal and goal in wanted for name, goal in others):
        return None
    if LOOP in wanted and any(name == function and goal.startswith("loop-") for name, goal in others):
        return None
    came = ", ".join("%s %s" % it for it in clauses + others)
    return "it is to be refused by %s of %s, and was by %s" % (" or ".join(wanted), function, came)
