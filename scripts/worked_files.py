"""The worked files of the rows and runs over them, for the other scripts of this folder: each run in a folder of its own, and what it
answers and leaves there."""
import os
import subprocess
import tomllib

from rattle_sources import TOP

OUTPUTS = ("w.stil", "w.v", "w.def")
REORDER = ("reorder --table t.toml --lef m.lef --verilog v.v --def d.def --stil s.stil"
           " --out-verilog w.v --out-def w.def --out-stil w.stil --effort full").split()
PLAY = "play --table t.toml --verilog v.v --stil s.stil --device hold".split()
CHECK = "check --table t.toml --lef m.lef --verilog v.v --def d.def".split()
REWIRE = ("rewire --verilog v.v --cell SDF --in-pin SI --out-pin Q --scan-in si --scan-out so"
          " --out-verilog w.v a c b").split()


def all_worked():
    """The bytes of the files of all worked texts, by their names."""
    with open(os.path.join(TOP, "rows", "worked.toml"), "rb") as file:
        return {name: {file_name: text.encode() for file_name, text in texts.items()} for name, texts in tomllib.load(file).items()}


def worked(name):
    """The bytes of the files of worked texts, by their names."""
    return all_worked()[name]


def write(folder, files):
    for name, text in files.items():
        with open(os.path.join(folder, name), "wb") as file:
            file.write(text)


def answer(program, words, folder, **how):
    """The status of a run in the folder and what it says, and each output that stands there then, and no longer behind the call. A status below 0
    is the signal that ended the program."""
    done = subprocess.run([program] + words, cwd=folder, stdin=subprocess.DEVNULL, stdout=subprocess.PIPE,
                          stderr=subprocess.DEVNULL, timeout=60, **how)
    left = {}
    for name in OUTPUTS:
        path = os.path.join(folder, name)
        if os.path.exists(path):
            with open(path, "rb") as file:
                left[name] = file.read()
            os.remove(path)
    return done.returncode, done.stdout, left


def told(program, words, folder):
    """What a run in the folder tells its user on standard error."""
    return subprocess.run([program] + words, cwd=folder, stdin=subprocess.DEVNULL, stdout=subprocess.DEVNULL, stderr=subprocess.PIPE, timeout=60).stderr
