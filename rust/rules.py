"""What the erasure deletes, replaces, and takes from files written by hand, each with its reason. rust/erase.py does
it, and rust/check.py allows no more."""

import functools
from pathlib import Path

# What is deleted: by kind, why, and its forms. A form is an item, or what has to be before it|the item|what has to be
# after it. NAME is any name, LABEL a loop's that no `break` and no `continue` names, and `…` all that the next bracket
# closes, or all up to the next token. The check does not use these forms.
ARGUMENTS = ["alloc: Global", "_alloc: Global", "rt.alloc()", "alloc"]
RUNTIMES = ["rt: HostRuntime", "rt: &HostRuntime", "rt", "&rt"]


def arguments(forms):
    return [f"{before}|{form}{after}" for form in forms for before in "(," for after in (",|", "|)")]


DELETED = {
    "clause": ("what a function requires or ensures",
               [f"{word}{name} {{…}}" for word in ("requires", "ensures") for name in ("", " NAME")]),
    "ghost use": ("an import of names for clauses", ["ghost use …;"]),
    "ghost member": ("a ghost member, field, parameter or argument",
                     [f"{pub}ghost NAME{mark} {{…}}{end}"
                      for pub in ("", "pub ") for mark in ":=" for end in (",", ";", "")]),
    "tactic": ("an attribute for the prover", ["#[tactic(…)]", "#![tactic(…)]"]),
    "model": ("how clauses see a type",
              ["use std::marker::Model;", "impl Model for NAME {…}", "impl<…> Model for NAME<…> {…}"]),
    "Drop": ("in Rust every type may be dropped", ["#[derive(Drop)]", "|, Drop|)", "+ Drop", "where N::Err: Drop,"]),
    "label": ("a name of a loop for the proof", ["|LABEL:|for", "|LABEL:|while", "|LABEL:|loop"]),
    "allocator": ("std has one, which every allocating call takes",
                  ["use std::alloc::Global;", "let alloc = rt.alloc();", *arguments(ARGUMENTS)]),
    "runtime": ("in the crates of tests, which need no more of it than the allocator", arguments(RUNTIMES)),
}
# A method of the trait PasswordHasher that crates/ cannot have.
DRAWING = """
    /// Hashes `password` with a new salt of 16 random bytes from the system.
    ///
    /// Returns `SaltInvalid` if the system has no random bytes, and the errors of
    /// [`hash_password_with_salt`](PasswordHasher::hash_password_with_salt).
    #[cfg(feature = "getrandom")]
    fn hash_password(&self, password: &[u8]) -> Result<H> {
        let mut drawn = [0; 16];
        getrandom::getrandom(&mut drawn).map_err(|_| crate::Error::SaltInvalid)?;
        self.hash_password_with_salt(password, &drawn)
    }

"""
# Each: old text, new text, reason. The new names are those of the crate support.
REPLACED = [
    ("#[unsafe(no_mangle)] pub extern \"C\" fn", "pub fn", "c_abi.rs exports it: rustc passes slices otherwise than C"),
    ("prove!(", "assert!(", "a constant condition: rustc checks it when it compiles"),
    ("std::alloc::{AllocError, Global}", "support::AllocError", "not stable"),
    ("std::alloc::AllocError", "support::AllocError", "not stable"),
    ("vec![in alloc;", "support::checked_vec![", "std's vec! aborts if memory is exhausted"),
    ("std::io", "support::io", "std has it only over an operating system, and its errors allocate"),
    ("std::test::Fail", "support::Fail", "the error of the kit's tests"),
    ("base64::engine", "support::base64", "its tables show secrets; base64ct has none"),
    ("fmt<W: fmt::Write>(&self, f: &mut fmt::Formatter<W>)", "fmt(&self, f: &mut fmt::Formatter<'_>)",
     "the kit's Formatter names its writer"),
    ("str::from_utf8(&places", "support::ascii::str_of(&places", "std's looks secret letters up in a table"),
    ("String::from_utf8(text)", "support::ascii::string_of(text)", "the same"),
    ("&x[start..start + len]", "support::row(x, start, len)",
     "where a row of the table begins is secret: the C library has no branch on it"),
    ("pub trait OrderedBlocks: Copy {", "pub trait OrderedBlocks: Copy + support::level::AtLevel {",
     "the level of the processor, which the type names: the kit builds for one level"),
    ("pub trait Lanes: Copy {", "pub trait Lanes: Copy + support::level::AtLevel {", "the same"),
    ("let most = W::max_interleave(); match n {", "let most = W::max_interleave(); support::at_level!(L => match n {",
     "the same: once for each level"),
    ("_ => unreachable!(), } }", "_ => unreachable!(), }) }", "the same"),
    *((f"{call}::<Diagonal<{old}>", f"{call}::<Diagonal<{new}>", "the same")
      for call in ("mix_group", "step_chunks") for old, new in (
        ("u32x4", "Four<L>"), ("u32x8", "Eight<L>"), ("Both<u32x8, u32x4>", "Both<Eight<L>, Four<L>>"),
        ("Both<u32x8, u32x8>", "Both<Eight<L>, Eight<L>>"))),
    ("use std::simd::{u32x4, u32x8};", "use support::simd::{Eight, Four, u32x4};", "the same"),
    ("std::simd", "support::simd", "std::simd is not stable"),
    ("let n = O::count(); let len = 32 * r;", "support::level::require::<O>(); let n = O::count(); let len = 32 * r;",
     "public functions: only who chose the type can name a level that the processor lacks"),
    ("x.xor(O::read(&self.y, i))", "x.xor(O::read(&self.y, i)).kept()", "the order of instructions"),
    ("pub trait Half: Lanes {", "pub trait Half: Lanes + support::simd::Tie {", "the same"),
    ("let x = A::turned(b.a, c.a, d.a); let y = B::turned(b.b, c.b, d.b);",
     "let mut x = A::turned(b.a, c.a, d.a); let mut y = B::turned(b.b, c.b, d.b);"
     " support::simd::tie(&mut x.0, &mut y.0);", "the same"),
    ("let once = self.double_round(); let twice = once.double_round(); let thrice = twice.double_round();"
     " let all = thrice.double_round();", "let mut all = self; for _ in 0..4 { all = all.double_round(); }",
     "the compiler takes half the time for a loop"),
    ("put_vector(&mut x[k * len..k * len + len], j, from);",
     "// SAFETY: the clauses `inside` and `room`, which are kept also without proof: see cores/simd/vectors.rs.\n"
     "unsafe { from.store(x, k * len + 4 * j) };", "a check here takes 1 to 3 per cent of the time"),
    ("Parts { words, len, starts }", "support::simd::inside(words, len, &starts); Parts { words, len, starts }",
     "what the unchecked accesses need is checked here once"),
    ("let r = len / 32; let mut x: O", "let r = len / 32; assert!(r > 0); let mut x: O", "the same"),
    ("let r = len / 32; let row_len", "support::level::require::<O>(); let r = len / 32; assert!(r > 0); let row_len",
     "the same, of a public method; and its level as above"),
    ("mix_next::<O>(self.memory, i, len, cores);",
     "support::level::require::<O>(); mix_next::<O>(self.memory, i, len, cores);", "its level as above"),
    ("let r = len / 32; let x = mix_block",
     "let r = len / 32; assert!(i < r && len <= output.len() / O::count()); let x = mix_block", "the same"),
    ("used.chunks.fill(0); used.scratch.fill(0);", "support::wipe(used.chunks); support::wipe(used.scratch);",
     "a compiler may leave out the zeros of `fill` if the memory is freed next"),
    ("chunks.fill(0); table.fill(0); scratch.fill(0);",
     "support::wipe(chunks); support::wipe(table); support::wipe(scratch);", "the same"),
    *((f"pub fn {it}(", f"#[inline]\npub fn {it}(", "the loops are compiled once, in the crate for C, and not in this too")
      for it in ("scrypt_with_buffers", "scrypt_thin")),
    ("hasher.clone().unwrap()", "hasher.clone()", "the kit's clone may fail; that of a hasher never does"),
    ("pub use backends::{Backend, Scalar, Simd, Simd as Target, SimdPairs};",
     "pub use backends::{Backend, Scalar, Simd, SimdPairs};"
     " #[cfg(not(target_arch = \"wasm32\"))] pub use backends::Simd as Target;"
     " #[cfg(target_arch = \"wasm32\")] pub use backends::SimdPairs as Target;",
     "what else would be compiled makes the module for JavaScript larger"),
    *((f"pub fn {it}", f"#[must_use] pub const fn {it}", "as in the crate scrypt") for it in (
        "new() -> Scrypt", "new_with_params(params: Params)", "recommended()", "log_n(&self)", "n(&self)", "r(&self)",
        "p(&self)")),
    ("{ Scrypt::default() }", "{ Scrypt::new_with_params(Params::RECOMMENDED) }", "the same: default is no const fn"),
    ("pub trait PasswordHasher<H> {", "pub trait PasswordHasher<H> {" + DRAWING, "crates/ has no random bytes"),
    ("hash_password(", "hash_password_with_drawn_salt(",
     "the same: `hash_password` draws the salt, as in the crate scrypt"),
]
# Crates that need no operating system: `std` is `core` in them, and what allocates is the crate alloc's.
NO_STD = {"scrypt_kernel", "password_hash", "scrypt", "scrypt_commands", "scrypt_tool", "scrypt_c"}
ROOTS = {
    **{f"{name}/src/lib.rt": "#![no_std]\n\nextern crate alloc;\n\n" for name in NO_STD},
    "scrypt_tool/src/main.rt":
        "#![cfg_attr(not(test), no_main)]\n#![cfg_attr(feature = \"program\", no_std)]\n\nextern crate alloc;\n\n",
    # An example in README needs the feature, so that README is no test without it.
    "scrypt/src/lib.rt":
        "#![no_std]\n"
        "#![cfg_attr(any(not(doctest), feature = \"getrandom\"), doc = include_str!(\"../README.md\"))]\n\n"
        "extern crate alloc;\n\n",
}
GROWTH_TRAITS = "use support::growth::*;\n"
ALLOCATED = {"String": "use alloc::string::String;\n", "Vec": "use alloc::vec::Vec;\n"}
# Calls that allocate: in the kit they return a Result, as support's checked_.. do, and std's abort. A Result is used:
# `?` or `unwrap` is after the call. By a wrong name, such as checked_push_str of an ArrayString, it does not compile.
GROWTH = {"push", "push_str", "extend_from_slice", "resize", "resize_with", "reserve", "with_capacity", "to_vec",
          "to_string", "from_str", "repeat", "replace"}
# Functions in which all that is for a level is inlined, by their files.
LEVELS = {
    "scrypt_kernel/src/walk.rt": {"step", "mix_recomputed"},
    "scrypt_kernel/src/table.rt": {"fill", "recompute", "mix_row"},
    "scrypt_kernel/src/steps.rt": {"step_chunks"},
}
# Files that are written by hand, and the folders that they are in: in place of a source, or beside them.
FILES = {"vectors.rs": "scrypt_kernel/src/cores/simd", "size.rs": "scrypt/src", "host.rs": "scrypt_tool/src",
         "with_64_bits.rs": "scrypt_c/src"}
# The calls that the module for JavaScript exports, on 32 bits.
JAVASCRIPT = set("""
scrypt_hash_mcf_with_buffers scrypt_hash_cost scrypt_hash_params scrypt_hash_phc_with_buffers scrypt_kdf_with_buffers
scrypt_key_begin scrypt_key_finish scrypt_key_step scrypt_default_limits scrypt_needs_rehash scrypt_params_cost
scrypt_stored_mcf scrypt_stored_phc scrypt_verify_begin scrypt_verify_finish scrypt_verify_limited_with_buffers
""".split())
EXPORT = """//! The functions that C calls: each slice is a pointer and a length there{}. Generated.
#![allow(clippy::missing_safety_doc, unused_unsafe)]

{}
"""
EXPORTS = {
    "c_abi.rs": EXPORT.format("", "use crate::cost::Cost;\nuse scrypt::{Progress, Size};\n"
                             "use support::{slice, slice_mut};"),
    "c_abi_64.rs": EXPORT.format(", of 64 bits each",
                                 "use crate::with_64_bits::{limited, place, progress, slice, slice_mut};"),
}
# How these take each type: a pattern of it, the parameters, with {0} for the name and {2} for the pattern's group, and
# what the proved function is passed. For JavaScript each address, length and number of type usize has 64 bits, as in
# the proofs.
PASSED = {
    "c_abi.rs": [
        (r"&(?:'\w+ )?\[(\w+)\]", "{0}: *const {2}, {0}_count: usize", "slice({0}, {0}_count)"),
        (r"&(?:'\w+ )?mut \[(\w+)\]", "{0}: *mut {2}, {0}_count: usize", "slice_mut({0}, {0}_count)"),
        (r".*", "{0}: {1}", "{0}"),
    ],
    "c_abi_64.rs": [
        (r"&(?:'\w+ )?\[\w+\]", "{0}: u64, {0}_count: u64", "slice({0}, {0}_count)"),
        (r"&(?:'\w+ )?mut \[\w+\]", "{0}: u64, {0}_count: u64", "slice_mut({0}, {0}_count)"),
        (r"&.*Progress", "{0}: u64", "&mut progress({0})"),
        (r"&.*", "{0}: u64", "place({0})"),
        (r"usize", "{0}: u64", "limited({0})"),
        (r"Size|u64", "{0}: u64", "{0}"),
        (r"[iu]\d+", "{0}: {1}", "{0}"),
    ],
}
# What is added to a file.
ADDED = {"scrypt_c/src/lib.rt": """
#[cfg(target_pointer_width = "64")]
mod c_abi;
#[cfg(target_pointer_width = "32")]
mod c_abi_64;
#[cfg(target_pointer_width = "32")]
mod with_64_bits;
"""}
# Methods of these names that are the repository's own, by their receiver.
OWN = [["hash", ".", "push_str"]]


def is_no_std(name):
    return name.split("/")[0] in NO_STD


def heads(name, kept, grows):
    """What is added before the first item of a file that has these words, and has calls of support's growth or not."""
    allocated = [text for word, text in ALLOCATED.items() if word in kept and is_no_std(name)]
    return "".join([ROOTS.get(name, ""), *allocated, GROWTH_TRAITS * grows])


def of(name):
    """The replacements in this file: old text, new text."""
    core = [("std::", "core::")] if is_no_std(name) else []
    return [*((old, new) for old, new, _ in REPLACED), *core]


@functools.cache
def every():
    """Every rule, as the check counts it."""
    growth = [(word, f"checked_{word}") for word in GROWTH]
    return [*((old, new) for old, new, _ in REPLACED), *growth]


def sources():
    """The sources that are erased, and their names in crates/: not those in whose place a file by hand stands."""
    hand = {f"{folder}/{file}".replace(".rs", ".rt") for file, folder in FILES.items()}
    paths = {path.relative_to("crates").as_posix(): path for path in sorted(Path("crates").glob("*/src/**/*.rt"))}
    return [(name, path.read_text()) for name, path in paths.items() if name not in hand]
