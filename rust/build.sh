#!/bin/sh
# Builds and tests the erased crates by cargo, without the kit; as Debian's crates, unless CARGO_NET_OFFLINE is false.
# usage: build.sh                              the crates' tests
#        build.sh c [TARGET]                   build/rust/c/TARGET/scrypt_c.o for bindings/c
#        build.sh program [TARGET [OUTPUT]]    the program, build/bin/scrypt_tool
#        build.sh package                      build/rust/target/package/*.crate: the packages that are published, each built
#                                              from its own
#        build.sh erase                        only the crates, build/rust/workspace; with ERASED=1 other calls take what
#                                              it left
set -eu
cd "$(dirname "$0")/.."
out=build/rust/workspace registry=${CRATES:-/usr/share/cargo/registry}
erase() {
  rm -rf "$out"
  python3 -B -m rust.erase "$out"
  python3 -B -m rust.check "$out"
  if [ "${CARGO_NET_OFFLINE:-true}" = true ]; then
    mkdir -p "$out/.cargo"
    printf '[source.crates-io]\nreplace-with = "debian"\n[source.debian]\ndirectory = "%s"\n' \
      "$registry" > "$out/.cargo/config.toml"
  fi
  if cargo fmt --version > /dev/null 2>&1; then (cd "$out" && cargo fmt --all); fi # only for readers
}
if [ -z "${ERASED:-}" ] || [ "${1:-}" = erase ]; then erase; fi
top=$PWD host=$(rustc -vV | sed -n 's/^host: //p')
target=${2:-$host}
cd "$out"
export CARGO_TARGET_DIR=../target
if [ "$target" != "$host" ]; then CARGO_TARGET_DIR=../target-$target; fi
case $target in # the names of binutils and of the compiler begin so
  "$host") tools='' ;;
  *-windows-gnu) tools=${target%%-*}-w64-mingw32- ;;
  *) tools=${target%%-*}-linux-gnu- ;;
esac
# Only proved code calls the kernel in the C library and the program, so they need no check of where a row begins.
PROVED="--cfg unchecked_rows ${RUSTFLAGS:-}"
case ${1:-} in
  erase) exit ;;
  '')
    (cd "$top" && python3 -B -m rust.test_check > /dev/null)
    if command -v cargo-clippy > /dev/null; then cargo clippy --all-targets --features proved-scrypt/getrandom -- -D warnings
    else "$top/tools/lacks" 'cargo clippy' rust-web-clippy; fi
    RUSTDOCFLAGS="-D warnings" cargo doc --no-deps --package 'proved-scrypt*' --features proved-scrypt/getrandom
    # Some tests take all memory that the process may have. One reads the peak of the process's memory, in which a second
    # arena of glibc's malloc would have a part: libtest runs each test in a thread.
    # shellcheck disable=SC3045 # the shells of Linux have -v
    (ulimit -v 4000000; cargo test --features proved-scrypt/getrandom -- --test-threads=1 --skip memory::tables)
    MALLOC_ARENA_MAX=1 cargo test -p library_tests memory::tables -- --exact
    exit ;;
  package)
    # Bottom up, as they are published: a registry of this machine has those below.
    below=$top/build/rust/registry
    rm -rf "$below" ../target/package
    mkdir "$below"
    ln -s "$registry"/* "$below"
    for folder in support scrypt_kernel password_hash scrypt; do
      cp "$top/LICENSE" $folder
      cargo --config "source.debian.directory=\"$below\"" package --allow-dirty --manifest-path $folder/Cargo.toml
      tar -xzf ../target/package/"$(sed -n 's/^name = "\(proved-.*\)"/\1/p' $folder/Cargo.toml)"-[0-9]*.crate -C "$below"
      for new in "$below"/proved-scrypt*; do echo '{ "files": {} }' > "$new/.cargo-checksum.json"; done
    done
    exit ;;
  program) # with the prompt, and the library's memory, which is wiped before it is freed
    room=$top/build/rust/program/$target output=$top/${3:-build/bin/scrypt_tool} CC=${tools}gcc
    (cd "$top" && python3 -B -m tools.generate.declarations "$room")
    for it in cli/terminal c/blocks c/linux; do
      "$CC" -std=gnu99 -O2 -Wall -Wextra -fPIE -ffunction-sections -fstack-protector-strong -U_FORTIFY_SOURCE -D_FORTIFY_SOURCE=2 \
        -I"$room" -I"$top/bindings/c" -c "$top/bindings/$it.c" -o "$room/${it#*/}.o"
    done
    RUSTFLAGS=$PROVED "$top/rust/sysroot.sh" "$target" cargo rustc -p scrypt_tool --release --features program \
      --target "$target" -- -C linker="$CC" -C link-args="$room/terminal.o $room/blocks.o $room/linux.o -lc -lgcc"
    install -D "$CARGO_TARGET_DIR/$target/release/scrypt_tool" "$output"
    exit ;;
esac
to=../c/$target
mkdir -p "$to"
# One object, which calls a few functions of C and of libgcc. Names are as bindings/c/tests has them in lists, such as
# scrypt_kernel::walk::step::<#a77805eccdbb2827>.
RUSTFLAGS="-C relocation-model=pic $PROVED" "$top/rust/sysroot.sh" "$target" cargo rustc -p scrypt_c --release \
  --features c_library --target "$target" --crate-type staticlib -- --emit=obj="$PWD/$to/all.o"
case $target in *-apple-*) exec mv "$to/all.o" "$to/scrypt_c.o" ;; esac # with all its names: the library is not built for it
"${tools}nm" "$to/all.o" | awk '$NF ~ /^_+[ZR]/ { print $NF }' | sort -u > "$to/names"
# shellcheck disable=SC2094 # it is read twice
c++filt < "$to/names" | sed -E 's/::h([0-9a-f]{16})$/::<#\1>/; s/ /_/g' | paste -d= "$to/names" - |
  sed -E 's/^([^=]*)(\.[0-9]+)=.*/&\2/; s/^/--redefine-sym=/' > "$to/renamed" # LLVM numbers two of one name
"${tools}objcopy" -w -g -G 'proved_*' -R .llvmbc -R .llvmcmd "@$to/renamed" "$to/all.o" "$to/scrypt_c.o"
rm "$to/all.o" "$to/names" "$to/renamed"
