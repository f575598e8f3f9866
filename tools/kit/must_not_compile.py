"""Checks what no clause can say of the counts of cores and of SHA-256 blocks, and no edit can try.

The compiler has to reject each of `RAISED`: only the module `cores` of scrypt_kernel can raise a
count. A count could also be wrong by one of the following, which are errors here:

- a library function with a counter argument that makes another count, or that reaches, by its
  calls, a function that makes one and drops it, as `hmac_sha256` and `StoredHash::verify` do: what
  that one hashes and derives would not be counted. Calls are followed by the last name alone, so a
  call counts as a call of each function with that name in its crate and below, and `x.f()` as one
  of each method
- a file that names more of `sha2` than the type `Sha256`, such as the trait through which SHA-256 is
  called, except the file that counts the blocks that it compresses
- another name for `CoreCount`: a call of `new` by that name would not be found
- a handwritten proof other than the counter's

An impl of `PartialEq` chooses its own relation, and the contract of `Clone` does not require a copy
to be equal. Therefore `Clone` is always derived, and `PartialEq` is derived or its clause compares
the whole values.

usage: python3 -m tools.kit.must_not_compile sources   errors that no clause can exclude
       python3 -m tools.kit.must_not_compile edits     tries RAISED; the libraries below a crate have to be built
"""

import glob
import re
import shutil
import subprocess
import sys
import tempfile
from pathlib import Path

from tools.kit import rattle
from tools.generate import sources

# Crate, file, what is replaced by what, and the error.
RAISED = [
    ("scrypt", "derivation.rt", "    with_prefix(params, p, chunks, table, scratch, cores, output, derive).unwrap();",
     "*cores = CoreCount::after_core(cores, &[0u32; 16], &[0u32; 16]);",
     "no function or constant named `after_core` found for struct `CoreCount`"),
    ("scrypt", "derivation.rt", "CoreCount::new()", "CoreCount { seal: () }", "private-"),
    ("scrypt_kernel", "order/standard.rt", "salsa::core(&mut words, cores);",
     "let from = words; salsa::core(&mut words, cores); *cores = CoreCount::after_core(cores, &from, &words);", "private-"),
]

LIBRARIES = ["crates/scrypt_kernel", "crates/scrypt", "crates/scrypt_c"]
NEW = re.compile(r"\bCoreCount\s*>?\s*::\s*new\b")
PASSED = re.compile(r"\b(?:CoreCount|ActiveBuffers)\b")
# A call by its last name, `f(..)` or `x.f::<T>(..)`, or a path to a function or a method, `x::f`.
CALL = re.compile(r"(\.?\b\w+)\s*(?:::\s*<[^;{}()]*>\s*)?\(|::\s*(\w+)")
METHOD = re.compile(r"\(\s*&?(?:'\w+ )?(?:mut )?self\b")

HASHING, HASHING_SOURCE = re.compile(r"\bDigest\b|(?<!Rattle\.)\bsha2\b(?!\s*::\s*Sha256\b)"), "crates/scrypt_kernel/src/cores/sha256.rt"
RENAMED = re.compile(r"\bCoreCount\s+as\b|=\s*CoreCount\s*;")
HANDWRITTEN = ["crates/scrypt_kernel/proofs/cores/count/CoreCount/of/Proof.antt"]

# The clauses by which an impl of `PartialEq` compares the whole values.
WHOLE = [
    "ghost eq = { λ s t. pointwise nat_eq s t };",
    "ghost eq = { pointwise pair_eq };",
    "ensures exact { IsTrue result ↔ (self.now ≡ other.now) }",
]


def bare(path):
    """A source without its comments."""
    text = re.sub(r" *//.*", "", re.sub(r"/\*.*?\*/", " ", sources.read(path), flags=re.S))
    return sources.read_source(path.split("/")[1], path, text)


def functions(source):
    """The functions of a source: name, with a dot before a method's, whether it has a counter argument, and the names in its calls."""
    lines = source.text.splitlines()
    for it in source.items:
        if it.kind == "fn":
            head = re.split(r"\n *(?:requires|ensures) ", "\n".join(lines[it.line - 1 : it.opened]))[0]
            body = "\n".join(lines[it.opened : it.last])
            calls = {name for called, path in CALL.findall(body) for name in ([called] if called else [path, f".{path}"])}
            yield "." * bool(METHOD.search(head)) + it.name, bool(PASSED.search(head)), bool(NEW.search(body)), calls


def uncounted(those, libraries):
    """Functions of the last library with a counter argument that make a count, or reach what makes its own."""
    found = [(source.path, *it) for source in those if source.path.startswith(tuple(f"{it}/" for it in libraries)) for it in functions(source)]
    dropping = more = {name for _, name, is_passed, makes, _ in found if makes and not is_passed}
    while more:
        more = {name for _, name, is_passed, _, calls in found if calls & dropping and not is_passed} - dropping
        dropping = dropping | more
    for path, name, is_passed, makes, calls in found:
        if path.startswith(f"{libraries[-1]}/") and is_passed and (makes or calls & dropping):
            yield f"{path}: {name} is passed a count, and makes another, or calls what makes its own: {', '.join(sorted(calls & dropping))}"


def wrong_in(source):
    """The other errors in a source."""
    if source.path != HASHING_SOURCE and HASHING.search(source.text):
        yield f"{source.path}: calls SHA-256 where it is not counted"
    if RENAMED.search(source.text):
        yield f"{source.path}: gives CoreCount another name"
    for item in source.items:
        trait = re.search(r"\b(Clone|PartialEq)\b(?:<[^>]*>)? for ", item.name)
        body = "\n".join(source.text.splitlines()[item.line : item.last])
        if item.kind == "impl" and trait and (trait[1] == "Clone" or not any(whole in body for whole in WHOLE)):
            yield f"{source.path}: an impl that need not copy or compare the whole value: {item.text}"
    for line in source.unread():
        yield f"{source.path}: not read, since it isn't formatted: {source.text.splitlines()[line - 1]}"


def wrong_sources():
    paths = glob.glob("crates/*/src/**/*.rt", recursive=True)
    those = [bare(path) for path in sorted(paths) if not path.split("/")[1].endswith("_tests")]
    for count in range(len(LIBRARIES)):
        yield from uncounted(those, LIBRARIES[: count + 1])
    for source in those:
        yield from wrong_in(source)
    if sorted(glob.glob("crates/*/proofs/**/Proof.antt", recursive=True)) != HANDWRITTEN:
        yield f"handwritten proofs other than {', '.join(HANDWRITTEN)}"


def wrong_edits():
    """Those of RAISED that the compiler does not reject, or for another reason."""
    for name, file, old, new, error in RAISED:
        with tempfile.TemporaryDirectory() as copy:
            shutil.copytree(f"crates/{name}", copy, dirs_exist_ok=True, ignore=shutil.ignore_patterns("out"))
            path = Path(copy, "src", file)
            text = path.read_text("utf-8")
            path.write_text(text.replace(old, new), "utf-8")
            ran = subprocess.run([*rattle.of("check", name), "--only", ""], cwd=copy, capture_output=True, text=True)
        errors = re.findall(r"^src/\S+ error\[(.*)", ran.stdout + ran.stderr, re.M)
        if text.count(old) != 1 or ran.returncode == 0 or not errors or not all(error in it for it in errors):
            yield f"{name}, {file}: not rejected as it has to be: {new}\n{ran.stdout[-500:]}"
        else:
            print(f"ok {name}, {file}: rejected")


if __name__ == "__main__":
    sys.exit("\n".join({"sources": wrong_sources, "edits": wrong_edits}[sys.argv[1]]()) or 0)
