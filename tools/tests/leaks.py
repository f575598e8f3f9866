"""Plants leaks of secrets into the C library, and fails unless bindings/c/tests/test_secrets.c finds each.

It changes a copy: the erased crates, where no proof has to accept the change, or the C around them. It needs valgrind and a
processor with AVX2, and takes some minutes.
"""

import shutil
import subprocess
import sys
import tempfile
from pathlib import Path

TOP = Path(__file__).resolve().parents[2]
CRATES = "build/rust/workspace/"
# A read of a table at a byte. The value is kept, because valgrind drops a load that nothing uses.
READ = "core::hint::black_box(core::hint::black_box(&[0u8; 256])[({}) as usize & 255]);\n    "

# What is planted; the file, a text that occurs once in it, and what stands there instead.
LEAKS = [
    ("PHC's keys are compared up to the first byte that differs", CRATES + "password_hash/src/phc/short_bytes.rs",
     "same &= a[i] == b[i];", "if a[i] != b[i] { return false; }"),
    ("$7$ keys are compared up to the first letter that differs", CRATES + "password_hash/src/mcf/crypt64.rs",
     "same &= rest.next() == Some(&letter);", "if rest.next() != Some(&letter) { return false; }"),
    ("keys are compared up to the first piece of 96 bytes that differs", CRATES + "scrypt/src/comparing.rs",
     "same &= parts.key.matches_at(at, piece);", "if !parts.key.matches_at(at, piece) { return false; }"),
    ("the letters of $7$ are read from a table", CRATES + "password_hash/src/mcf/alphabet.rs",
     "(value + 46 + 7", READ.format("value") + "(value + 46 + 7"),
    ("HMAC reads a table at a byte of the key", CRATES + "scrypt_kernel/src/hmac.rs",
     "let mut out = [0u8; 64];\n    for i in 0..64 {\n        out[i] = mask", READ.format("block[0]")
     + "let mut out = [0u8; 64];\n    for i in 0..64 {\n        out[i] = mask"),
    ("the walk reads a table at a byte of X", CRATES + "scrypt_kernel/src/walk.rs",
     "let starts = take_rows::<O>(x, v,", READ.format("x[0]") + "let starts = take_rows::<O>(x, v,"),
    ("scrypt_key drops zero bytes at the end of a password", "bindings/c/calls.c", "  return cleared_scrypt_kdf(",
     "  while (password_len > 0 && bytes_of(password)[password_len - 1] == 0) password_len--;\n  return cleared_scrypt_kdf("),
]


def run(*words, cwd):
    """Ends the script with the output of the command if it fails."""
    ran = subprocess.run(words, cwd=cwd, stdout=subprocess.PIPE, stderr=subprocess.STDOUT, text=True, check=False)
    if ran.returncode:
        sys.exit(f"{ran.stdout}{words} failed")


def is_found(copy, what, wanted=1):
    """Whether the test ends with this status."""
    run("env", "ERASED=1", "rust/build.sh", "c", cwd=copy)
    run("cmake", "--preset", "native", cwd=copy / "bindings/c")
    run("cmake", "--build", "build/native", "--target", "test_secrets_level1", cwd=copy)
    command = ["valgrind", "-q", "--error-limit=no", "--num-callers=1", "build/native/tests/test_secrets_level1"]
    ran = subprocess.run(command, cwd=copy, capture_output=True, check=False).returncode
    said = {0: "passes", 1: "fails"}.get(ran, f"ended with {ran}")
    print(f"{what}: {said}{'' if ran == wanted else ': WRONG'}", flush=True)
    return ran == wanted


def main():
    with tempfile.TemporaryDirectory() as folder:
        copy = Path(folder, "tree")
        shutil.copytree(TOP, copy, ignore=shutil.ignore_patterns(".git", "build", "out", "target", "node_modules"))
        run("rust/build.sh", "erase", cwd=copy)
        right = [is_found(copy, "nothing is planted", 0)]
        for what, name, old, new in LEAKS:
            path = copy / name
            text = path.read_text("utf-8")
            if text.count(old) != 1:
                sys.exit(f"{name}: not as this script knows it")
            path.write_text(text.replace(old, new), "utf-8")
            right.append(is_found(copy, what))
            path.write_text(text, "utf-8")
    print(f"{sum(right)} of {len(right)}")
    return not all(right)


if __name__ == "__main__":
    sys.exit(main())
