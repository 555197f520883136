"""Edits of a crate in groups that one check can judge. `rt` itself applies an edit, and tries one alone, so that an edit means the same there and here."""
import importlib.machinery
import importlib.util
import os
import re
import shutil
import subprocess
import sys
import tempfile
import time
from dataclasses import dataclass, field

from items import blanked, items_of
from judged import judged


def load(name, path):
    """A script of the kit as a module."""
    loader = importlib.machinery.SourceFileLoader(name, path)
    made = importlib.util.module_from_spec(importlib.util.spec_from_loader(name, loader))
    sys.modules[name] = made
    loader.exec_module(made)
    return made


rt = load("rt", shutil.which("rt") or sys.exit("the Rattle kit (rt) is not on the path"))
rtlib = rt.rtlib
ONE_JOB = ["--jobs", "1"]
# What the kit says of an edit that the prover refuses: some kits answer a word for each way in which it does, and others that it is so.
REFUSALS = {getattr(rt, name, True) for name in ("REFUSED", "AT_LIMIT")}
SHOWN = 240  # the most characters of what refuses an edit


@dataclass
class Edit:
    path: str
    label: str
    # The functions whose bodies it changes, as items.py names them; none where it changes something else, and where that can't be said.
    functions: set = field(default_factory=set)


def texts_of(folder):
    """The texts of a crate's files, by their paths in it."""
    texts = {}
    for path in rtlib.files_of(folder):
        with open(path, encoding="utf-8", errors="replace") as it:
            texts[os.path.relpath(path, folder)] = it.read()
    return texts


def changed_part(before, after):
    """Where two texts differ, in the first one: from one place to another."""
    first = len(os.path.commonprefix([before, after]))
    last = len(os.path.commonprefix([before[first:][::-1], after[first:][::-1]]))
    return first, len(before) - last


def readers_of(constant, texts):
    """The functions whose bodies read a constant, or none where something else reads it: a type, a clause, a definition or another constant."""
    readers, word = set(), re.compile(rf"\b{constant}\b")
    for path, text in texts.items():
        if not path.endswith(".rt"):
            if word.search(text):
                return set()
            continue
        items, text = items_of(path, text), blanked(text)
        for found in word.finditer(text):
            at = found.start()
            bodies = {name for name, start, end in items.functions if start <= at < end}
            is_own = any(name == constant and start <= at < end for name, start, end in items.constants)
            is_import = re.search(r"(\bghost\s+)?\buse\b[^;]*\Z", text[:at])
            if not bodies and not is_own and (not is_import or is_import[1]):
                return set()
            readers |= bodies
    return readers


def functions_changed(path, before, after, texts):
    """The functions whose bodies change with this file, or none where something else changes."""
    if not path.endswith(".rt"):
        return set()
    start, end = changed_part(before, after)
    items = items_of(path, before)
    bodies = {name for name, first, last in items.functions if first <= start and end <= last}
    if bodies:
        return bodies
    return next((readers_of(name, texts) for name, first, last in items.constants if first < start and end <= last), set())


def read_edit(path, crate, texts):
    """An edit, and why it can't be applied, or None."""
    edit = Edit(path, f"{crate.name}/{os.path.basename(path).removesuffix('.edit')}")
    changed, why = rt.read_edit(path, crate.folder)
    if why:
        return edit, why
    # Of two places in a file all that lies between them counts as changed, which is more than one body.
    parts = [functions_changed(at, texts[at], text, texts) for at, text in changed.items()]
    edit.functions = set().union(*parts) if all(parts) else set()
    return edit, None


def grouped(crate, edits):
    """The edits that change bodies alone in groups, in each of which no two change the same function, and no one's text is in another's way."""
    groups = []
    for edit in (it for it in edits if it.functions):
        beside = (it for it in groups if all(edit.functions.isdisjoint(other.functions) for other in it) and applied(crate, [*it, edit]))
        group = next(beside, None)
        if group is None:
            groups.append([edit])
        else:
            group.append(edit)
    return groups


def applied(crate, group):
    """The texts of the files that the edits of a group change together, or None where one is in another's way."""
    with tempfile.TemporaryDirectory(prefix="batch-") as room:
        shutil.copytree(f"{crate.folder}/src", f"{room}/src")
        whole = {}
        for edit in group:
            texts, why = rt.read_edit(edit.path, room)
            if why:
                return None
            whole |= texts
            for path, text in texts.items():
                with open(f"{room}/{path}", "w", encoding="utf-8") as it:
                    it.write(text)
    return whole


def paths_of(texts):
    """How the prover is asked for each function below src/: by its whole name, or, as it puts a type's functions where the type stands, by its type and its own name where no other has these."""
    names = [name for path, text in texts.items() if path.endswith(".rt") for name, _, _ in items_of(path, text).functions]
    ends = {name: "::".join(name.split("::")[-2:]) for name in names if re.search(r"(^|::)[A-Z]\w*::\w+$", name)}
    return {name: ends[name] if [*ends.values()].count(ends.get(name)) == 1 else name for name in names}


def checked(crate, texts, kept, only):
    """What a check says of the crate with these texts in the place of its own, or of some functions alone and what they call. It goes past what is not proved."""
    with tempfile.TemporaryDirectory(prefix="batch-") as room:
        for part in rtlib.PARTS:
            if os.path.isdir(f"{crate.folder}/{part}"):
                shutil.copytree(f"{crate.folder}/{part}", f"{room}/{part}")
        for path, text in texts.items():
            with open(f"{room}/{path}", "w", encoding="utf-8") as it:
                it.write(text)
        words = [rtlib.RATTLE, "check", *crate.words(ONE_JOB, keeps=False), "--incremental", kept, "--allow-holes"]
        words += [it for path in sorted(only) for it in ("--only", path)]
        how = {"cwd": room, "stdin": subprocess.DEVNULL, "stdout": subprocess.PIPE, "stderr": subprocess.STDOUT, "errors": "replace"}
        return subprocess.run([*rtlib.guarded(), *words], **how).stdout


def name_in(function, names):
    """What the prover calls a function. It puts a type's functions where the type stands, so the module may be another one. None where that is not sure."""
    if function in names:
        return function
    last = "::".join(function.split("::")[-2:])
    like = [it for it in names if it.endswith(f"::{last}")]
    return like[0] if len(like) == 1 and "::" in last else None


def try_group(crate, group, kept, paths):
    """What refuses each edit, by its path; those that no such check refuses are not there. A group that can't be judged is tried in halves."""
    only = {paths[function] for it in group for function in it.functions if function in paths}
    texts = applied(crate, group)
    found = judged(crate.name, checked(crate, texts, kept, only)) if texts else None
    names = {it.path: [name_in(function, found or {}) for function in sorted(it.functions)] for it in group}
    others = {name for name, left in (found or {}).items() if left.is_own} - {it for owned in names.values() for it in owned}
    if found is None or others:
        half = len(group) // 2
        if not half:
            return {}
        return try_group(crate, group[:half], kept, paths) | try_group(crate, group[half:], kept, paths)
    goals = {path: next((f"{it}: {found[it].goal}" for it in owned if it and found[it].goal), "") for path, owned in names.items()}
    return {path: goal if len(goal) <= SHOWN else f"{goal[:SHOWN]} .." for path, goal in goals.items() if goal}


def try_alone(crate, edit, kept):
    """Whether one edit is refused, and a line on it, as `rt must-fail` says it."""
    outcome, text = rt.must_fail(crate, edit.path, ONE_JOB, kept)
    what = text.partition(": ")[2].replace("BAD EDIT", "BROKEN").replace("refused, as it must be", "refused alone")
    return outcome in REFUSALS, f"{edit.label}: {' '.join(what.split())[:SHOWN]}"


def try_edits(crate, paths, kept, is_proved, until):
    """Whether each edit is refused, or None where the time was over before it was tried, and a line on it. The crate's proofs are taken from `kept` and put there. Where it has just been
    proved, a group's check asks for the changed functions alone, with what these call."""
    texts = texts_of(crate.folder)
    read = [read_edit(it, crate, texts) for it in paths]
    refused = {}
    for group in grouped(crate, [edit for edit, why in read if not why]):
        if time.monotonic() < until:
            refused |= try_group(crate, group, kept, paths_of(texts) if is_proved else {})
    for edit, why in read:
        if why:
            # The kit takes an edit that changes nothing for one that it can't read: here it is one that the prover doesn't refuse.
            yield False, f"{edit.label}: {'NOT REFUSED' if why.startswith('it changes nothing') else 'BROKEN'}: {why}"
        elif edit.path in refused:
            yield True, f"{edit.label}: refused: {refused[edit.path]}"
        elif time.monotonic() >= until:
            yield None, f"{edit.label}: not tried: the time was over"
        else:
            yield try_alone(crate, edit, kept)
