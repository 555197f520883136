"""Where edits stand, and where what a crate stands on is taken from."""
import contextlib
import os
import shutil
import subprocess
import sys
import tempfile

from batches import rtlib, try_edits

KEPT = "out/incremental"  # where `rt check` keeps the proofs of a crate


def stop(why):
    print(f"wrong_bodies: {why}", file=sys.stderr)
    sys.exit(2)


def edits_in(folder):
    return [f"{folder}/{name}" for name in sorted(os.listdir(folder)) if name.endswith(".edit")] if os.path.isdir(folder) else []


def edits_of(crate, since, names=frozenset()):
    """The edits of a crate that are to be tried, by their paths: those with these names, or all where none is named. Stops at a name that none has."""
    folders = [f"{crate.folder}/{it}" for it in ("must-fail", "wrong-bodies")]
    if not names:
        return [path for it in folders[since is not None :] for path in edits_in(it)]
    found = {os.path.basename(path).removesuffix(".edit"): path for it in folders for path in edits_in(it)}
    unknown = {*names} - {*found}
    if unknown:
        stop(f"{crate.name} has no edit {' '.join(sorted(unknown))}")
    return [found[it] for it in sorted(names)]


def is_of_gate(crate, since):
    """Whether a library is one that the gate has made since then of its sources as they stand. It leaves no stamp there, by which `rt` would take it for its own."""
    made = f"{crate.rlib}/format"
    if os.path.exists(f"{os.path.dirname(crate.rlib)}/stamp") or not os.path.isfile(made) or os.path.getmtime(made) < since:
        return False
    return all(os.path.getmtime(it) < os.path.getmtime(made) for it in rtlib.files_of(crate.folder))


def make_ready(crate, since):
    """Has the libraries below the crate made, and the crate proved as it stands. Stops where that fails.

    Behind the gate both are done. But a library is good only over those that it was made over, so all must be those of the gate or all `rt`'s own: where earlier checks were made in this
    place, the gate puts what these had made back."""
    if since is not None:
        if all(is_of_gate(it, since) for it in crate.below()) or all(it.is_built() for it in crate.below()):
            return
        print(f"wrong_bodies: the libraries below {crate.name} are not all those of the gate, so `rt check` makes them", file=sys.stderr, flush=True)
    ran = subprocess.run(["rt", "check"], cwd=crate.folder, stdin=subprocess.DEVNULL, stdout=subprocess.PIPE, stderr=subprocess.STDOUT, text=True, errors="replace")
    if ran.returncode:
        last = "\n".join(ran.stdout.rstrip().split("\n")[-6:])
        stop(f"{crate.name} is not proved as it stands, so nothing was tried:\n{last}")


def tried(crate, paths, since, until=float("inf")):
    """Whether each edit is refused, or None where the time, as `time.monotonic` has it, was over before it was tried, and a line on it."""
    with tempfile.TemporaryDirectory(prefix="kept-") as room:
        kept = f"{room}/kept"
        if os.path.isdir(f"{crate.folder}/{KEPT}"):
            shutil.copytree(f"{crate.folder}/{KEPT}", kept)
        return [*try_edits(crate, paths, kept, since is not None, until)]


@contextlib.contextmanager
def own_room():
    """Has all folders that this process and `rt` make stand in one, by whose name tools/gate_cost knows what a check is for."""
    with tempfile.TemporaryDirectory(prefix="wrong-bodies-") as room:
        tempfile.tempdir = room
        try:
            yield
        finally:
            tempfile.tempdir = None
