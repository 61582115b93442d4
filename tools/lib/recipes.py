"""Changes that were carried out, as patches over the tree (docs/recipes/)."""
import glob
import os
import re
import shutil
import subprocess
import tempfile
from functools import lru_cache

TOP = os.path.dirname(os.path.dirname(os.path.dirname(os.path.abspath(__file__))))
FOLDER = "docs/recipes"
# No repository around the tree has a say.
ALONE = {**os.environ, "GIT_DIR": "/nonexistent"}


@lru_cache(None)
def found():
    """The paths of each recipe's patches, in order."""
    names = {}
    for path in sorted(glob.glob(f"{TOP}/{FOLDER}/*.patch")):
        names.setdefault(re.match(r"(.*?)(?:-\d.*)?\.patch$", os.path.basename(path))[1], []).append(path)
    return names


def files(patches):
    """The files that these edit."""
    found_there = set()
    for path in patches:
        with open(path, encoding="utf-8") as file:
            found_there.update(re.findall(r"^(?:---|\+\+\+) [ab]/(\S+)", file.read(), re.MULTILINE))
    return sorted(found_there)


def crate_files(patches):
    """Those of them that are code, definitions and proofs of crates."""
    return [it for it in files(patches) if re.match(r"crates/\w+/(?:src|specs|proofs)/", it)]


def crates(patches):
    """The crates that they edit, lowest first."""
    with open(f"{TOP}/crates.txt", encoding="utf-8") as lines:
        order = [line.split("#")[0].split(":")[0].split()[:1] for line in lines]
    edited = {it.split("/")[1] for it in crate_files(patches)}
    return [it[0] for it in order if it and it[0] in edited]


def faults(name):
    """Why the recipe's patches don't apply, one upon another, to the tree as it stands."""
    wrong = []
    with tempfile.TemporaryDirectory(prefix="kpart-recipe-") as room:
        for path in files(found()[name]):
            if os.path.exists(f"{TOP}/{path}"):
                os.makedirs(os.path.dirname(f"{room}/{path}"), exist_ok=True)
                shutil.copy(f"{TOP}/{path}", f"{room}/{path}")
        for patch in found()[name]:
            ran = subprocess.run(["git", "apply", "--whitespace=nowarn", patch], cwd=room, env=ALONE, capture_output=True, text=True, check=False)
            wrong += [f"{FOLDER}/{os.path.basename(patch)}: {line}" for line in ran.stderr.splitlines() if line.startswith("error:")]
    return wrong
