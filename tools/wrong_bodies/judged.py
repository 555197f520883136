"""What a check that goes past open goals says of each function."""
import re
from dataclasses import dataclass

# An answer of a proof file that is refused only for the names in it says nothing of the contract.
OF_NAMES = r"has no `|is not in scope|has no field|was not admitted"


def goals_said(said):
    """What each open goal says, by the folder of its function below proofs/ and its name."""
    pattern = r"^note: `([^`]*)` of (?:\./)?proofs/(.*)/Answers\.antt must prove: (.*)$"
    return {(at, name): text for name, at, text in re.findall(pattern, said, re.M)}


def answers_refused(said):
    """Why an answer is refused, by the folder of its function below proofs/ and its name."""
    pattern = r"^(?:\./)?proofs/(.*)/Answers\.antt:\d+:\d+: error: `([^`]*)`: (.*)$"
    return {(at, name): text for at, name, text in re.findall(pattern, said, re.M) if not re.search(OF_NAMES, text)}


def causes_of(state, module):
    """What a function's line says is in the way, without what lies in other functions: one that it calls, or an answer of one."""
    causes = re.sub(r"\A(no proof|not proved)(: |; )?", "", state).split("; ")
    others = ("it calls ", "it waits for the proof of ")
    return [it for it in causes if not it.startswith(others) and (not it.startswith("it stands on ") or f"`{module}." in it)]


@dataclass
class Left:
    """What a check leaves of a function: a goal of its own that is open, and whether anything is in the way but what it calls."""

    goal: str = ""
    is_own: bool = False


def judged(crate, said):
    """What a check leaves of each function and each impl, by its name below the crate, or None where no program came to be."""
    if not re.search(r"^(only=\d+ )?holes=\d+$", said, re.M):
        return None
    goals, refused, found, noted = goals_said(said), answers_refused(said), {}, []
    for line in said.split("\n"):
        note = re.match(r"note: \S+:\d+:\d+: .*\(`([^`]*)`\)", line)
        if note:
            noted.append(note[1])
        each = re.match(rf"(?:fn|impl) {crate}::(\S+): (.*)$", line)
        if not each:
            continue
        name, state = each.groups()
        at, module = name.replace("::", "/"), f"Rattle.{crate}.proofs.{name.replace('::', '.')}"
        is_left = state.startswith(("no proof", "not proved")) and bool(causes_of(state, module))
        own = {it: goals.get((at, it), "") for it in noted} | {it: text for (of, it), text in refused.items() if of == at}
        goal = next(iter(own), "") if is_left else ""
        found[name] = Left(f"`{goal}`{': ' if own[goal] else ''}{own[goal]}" if goal else "", is_left)
        noted = []
    return found
