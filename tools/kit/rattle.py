"""The arguments of a `rattle` command on one crate, over the built libraries below it: in
crates/*/out, or at the same paths in the folder that PROVED_LIBRARIES names in the environment."""

import os
import shutil
import sys
from glob import glob
from pathlib import Path

from tools.generate.sources import crates


def kit():
    """The folder of the Rattle kit."""
    return Path(shutil.which("rt") or sys.exit("the Rattle kit's command rt isn't here")).resolve().parents[1]


def of(command, name):
    """The arguments, for any folder that has the crate's src/, specs/ and proofs/."""
    kind, used = crates()[name]
    folder, libraries = kit(), os.environ.get("PROVED_LIBRARIES") or os.path.join(os.getcwd(), "crates")
    root = "src/main.rt" if os.path.isfile(f"crates/{name}/src/main.rt") else "src/lib.rt"
    words = [f"{folder}/bin/rattle", command, "--crate-name", name, root]
    words += ["--crate-type", kind] if kind else []
    for library in ["std", *used]:
        place = f"{libraries}/{library}/out/rlib" if library in crates() else f"{folder}/rlibs"
        words += ["--extern", f"{library}={place}/{library}.rlib"]
    for place in [*glob(f"{libraries}/*/out/rlib"), f"{folder}/rlibs"]:
        words += ["-L", f"dependency={place}"]
    words += ["--antt-project", f"{folder}/rattle/logic/antt-project.json"]
    return [*words, "--logic-built", f"{folder}/logic_built"]
