#!/bin/sh
# Tests the Rust crate with the library of build/lib, and its package in a separate folder. With
# PRESET=windows, tests it in Wine, by Debian's compiler.
set -eu
cd "$(dirname "$0")/../.."
. bindings/preset.sh
begin_test
has cargo cargo || exit 77
export CARGO_TARGET_DIR="$room/target" CARGO_HOME="$room/cargo" CARGO_NET_OFFLINE=true RUSTDOCFLAGS="-D warnings"
unset SCRYPT_C_LIBRARY
cp "$lib/libscrypt_c.a" "bindings/rust/$bundled"
crate=bindings/rust
crate() {
  (cd "$crate" && "$@" > "$room/log" 2>&1) || { cat "$room/log"; exit 1; }
  grep '^test result: ' "$room/log" || true
}
if [ "$system" = windows ]; then
  # Debian has Rust's own library for Windows as source, and Wine 8 lacks a DLL that it calls. A backtrace crashes Wine,
  # where tests panic on purpose.
  target=x86_64-pc-windows-gnu
  sources=$(/usr/bin/rustc --print sysroot)/lib/rustlib/src/rust/library
  has "$sources" rust-web-src || exit 77
  export PATH="/usr/bin:$PATH" RUSTC=/usr/bin/rustc RUSTC_BOOTSTRAP=1 RUST_BACKTRACE=0 \
    CARGO_TARGET_X86_64_PC_WINDOWS_GNU_RUNNER="$emulator"
  mkdir -p "$CARGO_TARGET_DIR/$target/debug/deps"
  cat > "$room/prng.c" << 'END'
#include <windows.h>
#include <ntsecapi.h>
__declspec(dllexport) BOOL ProcessPrng(void *to, size_t n) { return RtlGenRandom(to, n); }
END
  "$CC" -shared "$room/prng.c" -o "$CARGO_TARGET_DIR/$target/debug/deps/bcryptprimitives.dll" -ladvapi32
  crate cargo test --quiet -Zbuild-std=std,test,panic_unwind --target $target --tests \
    --config 'source.crates-io.replace-with="std"' --config "source.std.directory=\"$sources/vendor\""
  echo "called from Rust, in Wine"
  exit
fi
crate cargo test --quiet
crate cargo doc --quiet --no-deps
if has rustfmt rustfmt; then crate cargo fmt --check; fi
if has cargo-clippy rust-web-clippy; then crate cargo clippy --quiet --all-targets -- -D warnings; fi

# The package, built elsewhere with its own library; without one the build prints what is missing.
cp tools/release/NOTICES bindings/rust/
crate cargo package --quiet --allow-dirty --no-verify
tar -xzf "$room"/target/package/scrypt_c-*.crate -C "$room"
crate=$(echo "$room"/scrypt_c-*/)
crate cargo test --quiet --test keys
rm "$crate"/libscrypt_c*.a
if (cd "$crate" && PKG_CONFIG=false cargo build --quiet 2> "$room/log"); then exit 1; fi
grep -q 'needs the library libscrypt_c: false does not find scrypt_c' "$room/log"
echo "ok packaged, and built elsewhere"
