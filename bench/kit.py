#!/usr/bin/env python3
"""What bench takes from the kit: no other file here loads the kit's `rt` from the inside.

bench/kit.py     says in one line which kit is found

`lacks` looks for each thing by its name. Where the kit lacks one, the caller goes by the kit's commands, which are slower and say the
same. BENCH_KIT=public in the environment hides all of them: so bench/kits tries the commands."""

import functools, importlib.machinery, importlib.util, inspect, os, re, shutil, subprocess, sys

sys.dont_write_bytecode = True
RT = os.path.realpath(shutil.which("rt") or sys.exit("bench: the kit's command rt is not on the PATH"))

# Where kits have each thing, the first that fits: a name in `rt`, and how many values the call takes (None: no call).
PLACES = {
    "crates_of": (("crates_of", 1), ("rtlib.crates_below", 1)),
    "stamp_of": (("stamp_of", 2), ("Crate.stamp", 1)),
    "handles_of": (("handles_of", 1),),
    "checked": (("checked", 4),),
    "main": (("main", 1),),
    "in_lanes": (("in_lanes", 1),),
    "need": (("need", 1),),
    "lock": (("rtlib.lock", 1),),
    "build_rlib": (("Crate.build_rlib", 3),),
    "is_built": (("Crate.is_built", 1),),
    "stamp": (("Crate.stamp", 1),),
    "try_unproved": (("Crate.try_unproved", 3),),
    "prove": (("Crate.prove", 2),),
    "words": (("Crate.words", 4),),
    "call": (("Crate.call", 2),),
    "KIT": (("rtlib.KIT", None),),
    "RATTLE": (("rtlib.RATTLE", None),),
}


@functools.lru_cache(maxsize=None)
def load():
    """Returns the kit's `rt` as a module, or None. The main thread calls it first: it sets a signal's handler."""
    try:
        if os.environ.get("BENCH_KIT") == "public":
            return None
        loader = importlib.machinery.SourceFileLoader("rt", RT)
        rt = importlib.util.module_from_spec(importlib.util.spec_from_loader("rt", loader))
        loader.exec_module(rt)
        rt.rtlib.guarded()
        rt.rtlib.Crate = rt.Crate
        return rt
    except Exception:  # another kit's `rt` may be anything
        return None


def named(path, count):
    """Returns what `rt` has under this name, if a call of it takes so many values, or None."""
    found = load()
    for name in path.split("."):
        found = getattr(found, name, None)
    try:
        return found if count is None or inspect.signature(found).bind(*range(count)) else None
    except (TypeError, ValueError):
        return None


def take(name):
    """Returns what PLACES names, or None where the kit lacks it."""
    return next(filter(None, (named(*place) for place in PLACES[name])), None)


def lacks(*names):
    """Returns the first of these names of PLACES that the kit lacks, or nothing."""
    return next((name for name in names if not take(name)), "")


def said_by_rt(*words):
    """Returns all that a command of the kit prints."""
    how = {"stdin": subprocess.DEVNULL, "stdout": subprocess.PIPE, "stderr": subprocess.STDOUT}
    return subprocess.run([RT, *words], text=True, errors="replace", **how).stdout.strip()


def version():
    return said_by_rt("version")


def logic():
    """Returns the sum of the kit's logic, which two kits may share."""
    return (re.findall(r"\blogic (\w+)", version()) or [""])[0]


def root():
    """Returns the kit's folder."""
    return take("KIT") or os.path.dirname(said_by_rt("doc"))


@functools.lru_cache(maxsize=None)
def takes_anew():
    """Returns whether `rt ci` takes --anew, as it does in a kit that keeps between runs what it proved."""
    with open(RT, encoding="utf-8", errors="replace") as file:
        return "--anew" in file.read() or "--anew" in said_by_rt("help")


def told():
    """Returns the line that says which kit is found."""
    lacking = ", ".join(filter(lacks, PLACES))
    keeps = "keeps what it proved between runs" if takes_anew() else "keeps nothing between runs"
    return f"kit: {version()}; {keeps}" + (f"; lacks {lacking}" if lacking else "")


def crates_of(folder):
    """Returns the crates of a folder, each after those that it uses, by name."""
    load().Crate.allowed = take("handles_of")(folder)
    return {it.name: it for it in take("crates_of")(folder)}


def stamp_of(crate):
    """Returns a text that changes with anything that the crate is made from."""
    both = named("stamp_of", 2)
    return str(both(crate, {}) if both else crate.stamp())


def checked(crate, texts, flags):
    """Checks a copy of the crate with these texts in place of its own. Returns the process that ended, with what it printed."""
    return take("checked")(crate, texts, flags, None)


def in_lanes(tasks):
    """Runs tasks as `rt ci` does. A task is what it waits for, its lines, its memory, and a call of what was given and of a number of jobs."""
    return take("in_lanes")(tasks)


def ci(words, change):
    """Runs `rt ci` with these words, over the tasks that `change` makes of its own. Returns its status."""
    in_order = take("in_lanes")
    load().in_lanes = lambda tasks: in_order(change(tasks))
    return take("main")(["ci", *words])


def need(crate):
    """Returns the bytes that a check of the crate may take."""
    return take("need")(crate)


def lock(crates):
    """Waits until no other `rt` works in these crates. Returns what keeps others out."""
    return take("lock")(crates)


def build_rlib(crate, jobs=1, anew=False, statements=False):
    """Proves a library, from nothing if `anew`, and leaves it in out/rlib: its statements alone if asked to, and then with no stamp.
    Returns the status."""
    type(crate).cuts_libraries = statements
    return crate.build_rlib(["--jobs", str(jobs)], anew=anew)


# A prover that was killed ends its caller so too: `rt` then tries once more with one job.
TEE = """#!/usr/bin/env bash
set -o pipefail
'{rattle}' "$@" 2>&1 | tee "{folder}/${{PWD##*/}}"
status=$?
[[ $status == 137 ]] && kill -9 $$
exit $status
"""


def tell_in(folder):
    """Has all that the prover says of a crate stand in a file of this folder, as it comes, under the name of the crate's folder."""
    tee = f"{folder}/rattle"
    with open(tee, "w", encoding="utf-8") as file:
        file.write(TEE.format(rattle=take("RATTLE"), folder=folder))
    os.chmod(tee, 0o755)
    load().rtlib.RATTLE = tee


def prove_rlib(crate, jobs, to):
    """Proves a library from nothing, and writes its statements alone: what `build_rlib` proves and writes, with a line for each function
    on the way. Returns the status."""
    checked = f"{os.path.dirname(to)}/checked"
    words = crate.words(["--jobs", str(jobs)], keeps=False)
    status = crate.prove(["check", *words, "--statements", "--progress", "-o", checked])
    for flag in ("--logic-built", "--jobs"):
        at = words.index(flag)
        words = [*words[:at], *words[at + 2 :]]
    return status or crate.call(take("RATTLE"), "build", *words, "--crate-checked", checked, "-o", to)


def try_alone(folder, top, flags, kit=""):
    """Does what `rt try` does, with another folder as the kit if one is given, but for the check of names that runs beside it and takes as
    long. A proof makes the same check. Returns the status."""
    lib = load().rtlib
    lib.KIT, lib.RATTLE = kit or lib.KIT, shutil.which("true")
    return lib.Crate(folder, top, {}).try_unproved(flags, [])


if __name__ == "__main__":
    print(told())
