"""Puts the library into the package, with the licences.

SCRYPT_C_LIBRARY names the library's file or its folder. If it is not set, the library is taken from
build/lib of the repository, where `make lib` puts it. A source archive already has the library in
the package, and takes no file from outside the archive, where another user may have put anything.
SCRYPT_C_MACHINE is the processor of a library for another machine.
"""

import os
import pathlib
import platform
import re

from hatchling.builders.hooks.plugin.interface import BuildHookInterface


def version():
    """Returns the version in the file that `make lib` generates."""
    declared = pathlib.Path(__file__).parent / "scrypt_c/declared.py"
    if not declared.exists():
        raise SystemExit("scrypt_c/declared.py is missing: first run `make lib` in the repository")
    return re.search('VERSION_STRING = "(.+)"', declared.read_text("utf-8"))[1]


def found(folder, names):
    """Returns the library in a folder, or None."""
    return next((folder / name for name in names if (folder / name).exists()), None)


def tag_of(library):
    """Returns the tag of a wheel with this library, whose newest symbols from glibc are of version
    2.17 (the test `glibc` of bindings/c); the tag for musl requires 1.2."""
    if library[:2] == b"MZ":
        return "py3-none-win_amd64"
    machine = os.environ.get("SCRYPT_C_MACHINE") or platform.machine()
    if b"\0libc.so.6\0" not in library:
        return f"py3-none-musllinux_1_2_{machine}"
    return f"py3-none-manylinux_2_17_{machine}.manylinux2014_{machine}"


class Library(BuildHookInterface):
    def initialize(self, version, build_data):
        root = pathlib.Path(self.root)
        is_archive = (root / "PKG-INFO").exists()
        top = root if is_archive else root / "../.."
        named = pathlib.Path(os.environ.get("SCRYPT_C_LIBRARY") or top / "build/lib")
        names = [f"libscrypt_c.so.{self.metadata.version.split('.')[0]}", "scrypt_c.dll"]
        library = named if named.is_file() else found(named, names)
        inside = found(root / "scrypt_c", names)
        files = build_data["force_include"]
        if library:
            name = names[library.read_bytes()[:2] == b"MZ"]
            files[str(library.resolve())] = f"scrypt_c/{name}"
        elif inside:
            library = inside
        else:
            how = "build it by `make lib`, or name its folder in SCRYPT_C_LIBRARY"
            raise SystemExit(f"no {names[0]} in {named}: {how}")
        is_wheel = self.target_name == "wheel"
        folder = f"{self.build_config.builder.artifact_project_id}.dist-info/" if is_wheel else ""
        places = top, top / "tools/release", root
        texts = [place / it for place in places for it in ("LICENSE", "NOTICES")]
        files |= {str(it): f"{folder}{it.name}" for it in texts if it.exists()}
        if is_wheel:
            build_data |= {"pure_python": False, "tag": tag_of(library.read_bytes())}
