#!/bin/sh
# Runs a command, such as cargo, whose rustc can compile for TARGET: with the library that `rustup target add TARGET`
# brings, or on Debian with core and alloc, which this compiles once from rust-web-src by rustc-web, in one or two
# minutes.
# usage: sysroot.sh TARGET COMMAND [WORD..]
set -eu
target=$1
shift
lib=$("${RUSTC:-rustc}" --print sysroot)/lib/rustlib/$target/lib
if [ -e "$lib" ]; then exec "$@"; fi
export RUSTC=/usr/bin/rustc
version=$($RUSTC --version 2> /dev/null | cut -d' ' -f2)
sources=/usr/src/rustc-$version/library
if ! [ -e "$sources" ]; then
  echo "rustc has no core for $target: rustup target add $target, or on Debian" \
    "apt-get install rustc-web rust-web-src" >&2
  exit 1
fi
out=$(dirname "$(dirname "$(realpath "$0")")")/build/rust/sysroot/$version/$target
compile() { # CRATE FOLDER OPTION..
  name=$1 folder=$2
  shift 2
  RUSTC_BOOTSTRAP=1 $RUSTC --crate-name "$name" --crate-type rlib --edition 2024 --target "$target" --sysroot "$new" \
    -O -Cpanic=abort -Ccodegen-units=1 -Zforce-unstable-if-unmarked --cap-lints allow -Cmetadata="$name" \
    -L "$to" --out-dir "$to" "$@" "$sources/$folder/src/lib.rs"
}
if ! [ -e "$out" ]; then
  new=$out.$$ to=$out.$$/lib/rustlib/$target/lib
  mkdir -p "$to"
  memory=mem-unaligned panic=abort
  # A panic ends the module, whose size the texts of panics would raise by a quarter.
  case $target in wasm32-*) memory=mem panic=immediate-abort ;; esac
  compile core core --cfg "panic=\"$panic\""
  compile compiler_builtins compiler-builtins/compiler-builtins --extern core --cfg 'feature="compiler-builtins"' \
    --cfg "feature=\"$memory\"" --cfg intrinsics_enabled --cfg arch_enabled --cfg optimizations_enabled \
    --cfg 'feature="unstable-intrinsics"'
  compile alloc alloc --cfg "panic=\"$panic\"" --extern core --extern compiler_builtins
  # Not as an option of cargo, which puts a hash of options, and so of this folder, into the names of symbols.
  printf '#!/bin/sh\ncase " $* " in *" --target %s "*) set -- --sysroot "%s" "$@" ;; esac\nexec %s "$@"\n' \
    "$target" "$out" "$RUSTC" > "$new/rustc"
  chmod +x "$new/rustc"
  mv -T "$new" "$out" 2> /dev/null || rm -r "$new" # another run was faster
fi
CARGO_TARGET_WASM32_UNKNOWN_UNKNOWN_LINKER=wasm-ld-$($RUSTC -vV | sed -n 's/^LLVM version: \([0-9]*\).*/\1/p')
export CARGO_TARGET_WASM32_UNKNOWN_UNKNOWN_LINKER RUSTC="$out/rustc"
exec "$@"
