#!/usr/bin/env python3
"""Plants faults in an erasure, and expects rust/check.py to find each of them; and the erasure alone to have none.

usage: python3 -m rust.test_check      (from the top of the repository)
"""

import sys
import tempfile
from pathlib import Path

from rust import check, erase, rules

WALK, SALSA, HASH = "scrypt_kernel/src/walk.rt", "scrypt_kernel/src/cores/salsa.rt", "scrypt_examples/src/hash.rt"
USAGE, MIXING, ERROR = "scrypt_commands/src/usage.rt", "scrypt/src/derivation/mixing.rt", "password_hash/src/error.rt"
# What is planted in the text that was written of a source.
WRITTEN = [
    ("a deleted statement", WALK, "x.copy_from_slice(next);", ""),
    ("a deleted loop", WALK, """for k in 0..(row.len() / 16).min(8) {
        seen = seen | vector(row, 4 * k);
    }""", ""),
    ("a deleted body of a loop", WALK, "seen = seen | vector(row, 4 * k);", ""),
    ("a deleted return", HASH, "return Ok(None);", ""),
    ("a deleted question mark", HASH, "needs_rehash(&Params::default())?", "needs_rehash(&Params::default())"),
    ("a deleted argument", WALK, "(x, v, next, spare, len, log_n, s, cores)", "(x, v, next, len, log_n, s, cores)"),
    ("a deleted parameter", WALK, "    missing: usize,\n", ""),
    ("a deleted branch", WALK, "mix_recomputed::<O>(x, kept, missing, next, spare, len, cores);", ""),
    ("a deleted else", WALK, "else {\n        let kept", "{\n        let kept"),
    ("a deleted negation", HASH, "if !StoredHash", "if StoredHash"),
    ("a deleted mut", WALK, "let mut seen", "let seen"),
    ("a deleted attribute", WALK, "#[inline(always)]\n", ""),
    ("a deleted function", HASH, "pub fn verify(", "fn verify("),
    ("a deleted end of a file", WALK, "    put_vector(spare, 0, seen);\n}", ""),
    ("swapped operands", WALK, "count % 2 == 1", "2 % count == 1"),
    ("swapped arguments", WALK, "step::<O>(next, v, x,", "step::<O>(x, v, next,"),
    ("a changed constant", WALK, "count / 2", "count / 3"),
    ("a changed rotation", SALSA, "rotate_left(7)", "rotate_left(9)"),
    ("a changed text", USAGE, '"scrypt_tool ', '"scrypt_tool  '),
    ("a changed operator", WALK, "j % (1usize << s)", "j & (1usize << s)"),
    ("added code", WALK, "let n = O::count();", "let n = O::count(); panic!();"),
    ("code added at the end", HASH, "salt)?))\n}", "salt)?))\n}\nfn f() {}"),
    ("a clause that is kept as code", HASH, "password: &[u8],\n) ->", "password: &[u8],\n)  ensures made { made } ->"),
    ("a ghost import that is kept", HASH, "use password_hash", "ghost use password_hash::Result; use password_hash"),
    ("an allocator that is kept", HASH, ".verify( password)", ".verify(alloc, password)"),
    ("half of a rule", MIXING, "support::at_level!(L => match n {", "match n {"),
    ("a function for one level", WALK, "support::levels! { unsafe", ""),
    ("a head that is missing", "scrypt_kernel/src/lib.rt", "#![no_std]", ""),
    ("code that is by hand elsewhere", "scrypt_kernel/src/cores/simd.rt", "pub mod", "impl Lanes for u32x4 {} pub mod"),
]
# Forms of what the eraser deletes, each of which a program would miss.
FORMS = [
    (WALK, "x.copy_from_slice(…);"), (WALK, "for k in 0..(…).min(8) {…}"), (WALK, "else {…}"), (WALK, "|spare,|"),
    (WALK, "#[inline(…)]"), (WALK, "let n = …;"), (HASH, "return …;"), (HASH, "?"), (HASH, "!"),
    (HASH, "ensures err {…} {…}"), (ERROR, "ghost output = {…}; fn fmt"), (ERROR, "ghost use …; use …;"),
]


def erased(name, text):
    return erase.Source(name, text).erased() + rules.ADDED.get(name, "")


def is_red(name, text):
    try:
        check.compare(name, Path("crates", name).read_text(), text)
        return False
    except (ValueError, LookupError):
        return True


def main():
    missed = []
    for what, name, old, new in WRITTEN:
        text = erased(name, Path("crates", name).read_text())
        assert old in text and not is_red(name, text), what
        missed += [] if is_red(name, text.replace(old, new, 1)) else [what]
    deleted = rules.DELETED
    for name, form in FORMS:
        source = Path("crates", name).read_text()
        text = erased(name, source)
        rules.DELETED = {"planted": ("", [form]), **deleted}
        erase.forms.cache_clear()
        assert erased(name, source) != text, form
        missed += [] if is_red(name, erased(name, source)) else [form]
        rules.DELETED = deleted
        erase.forms.cache_clear()
    with tempfile.TemporaryDirectory() as folder:
        erase.main(folder)
        assert check.main(folder) == 0
        missed += [] if check.main(folder, [("no_such_call(", "")]) else ["an unused rule"]
        Path(folder, "scrypt_kernel/src/more.rs").write_text("")
        missed += [] if check.main(folder) else ["a file without a source"]
    print(f"{len(WRITTEN) + len(FORMS) + 2} faults planted, {len(missed)} not found", *missed, sep="\n")
    return 1 if missed else 0


if __name__ == "__main__":
    sys.exit(main())
