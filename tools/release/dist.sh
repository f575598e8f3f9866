#!/bin/sh
# Makes build/dist of what `make lib`, for each machine, and `make js` have built: for each machine the archive of
# CPack, and for Linux its Debian packages; wheels for Python, the Go module, the Rust crates, the package for npm, the
# sources, the verdicts of the gate, if it proved this commit here, and the hashes of all. The packages are of the
# commit alone: they are the same, byte for byte, wherever root makes them with the same compilers, with the kit or
# without it.
# usage: dist.sh [PRESET..]       the machines, or all
set -eu
umask 022
cd "$(dirname "$0")/../.."
SOURCE_DATE_EPOCH=$(git log -1 --format=%ct)
export SOURCE_DATE_EPOCH LC_ALL=C TZ=UTC
dist=$PWD/build/dist parts=$PWD/build/dist-parts version=$(cat VERSION)
name=scrypt-proved-$version
presets=${*:-native $(python3 -m tools.presets packed)}
commit=$(git describe --always --dirty --abbrev=40 --exclude '*')
case $commit in *-dirty) echo "there are changes that are not committed" >&2 && exit 1 ;; esac
python3 -m tools.release.version
rm -rf "$dist" "$parts"
mkdir -p "$dist" "$parts"
rust/build.sh package > "$parts/log" 2>&1 || { cat "$parts/log"; exit 1; }
cp build/rust/target/package/*.crate "$dist"
# What is linked, on any machine, is named with its licence.
export ERASED=1
linked=$(cd build/rust/workspace && cargo tree -p scrypt_c -p scrypt_tool -e normal --target all --prefix none)
for it in $(echo "$linked" | sed '/^proved-scrypt\|^scrypt_/d; s/ .*//' | sort -u); do
  grep -q "^$it " tools/release/NOTICES || { echo "NOTICES does not name $it" >&2 && exit 1; }
done

for PRESET in $presets; do
  export PRESET
  make -s linked
  . bindings/preset.sh
  if [ "$system" = linux ] && ! [ -e "$build/bin/scrypt_tool" ]; then
    echo "no $build/bin/scrypt_tool: make run lib" >&2
    exit 1
  fi
  generators=TGZ\;DEB
  if [ "$system" = windows ]; then generators=ZIP; fi
  (cd "build/$PRESET" && rm -rf packages && cpack -G "$generators" > "$parts/log") || { cat "$parts/log"; exit 1; }
  cp "build/$PRESET/packages/"*scrypt-* "$dist"
  cmake --install "build/$PRESET" --strip --prefix "$parts/$PRESET" > "$parts/log"
  library=$(find "$parts/$PRESET" -name 'libscrypt_c.so.[0-9]*' -o -name scrypt_c.dll)
  (cd bindings/python && SCRYPT_C_LIBRARY=$library SCRYPT_C_MACHINE=$machine /usr/bin/python3 -B -m hatchling build -t wheel -d "$dist")
done > /dev/null

# packed NAME OUTPUT packs a folder of parts.
packed() {
  tar -C "$parts" --sort=name --mtime=@"$SOURCE_DATE_EPOCH" --owner=0 --group=0 --numeric-owner --mode=u=rwX,go=rX \
    --format=posix --pax-option=delete=atime,delete=ctime -cf - "$1" | gzip -9n > "$dist/$2"
}
module=scrypt-go-$version
set -- LICENSE tools/release/NOTICES
mkdir "$parts/$module" "$parts/package" "$parts/cargo"
cp "$@" bindings/go/*.go bindings/go/*.h bindings/go/libscrypt_c_*.a bindings/go/go.mod bindings/go/README.md \
  "$parts/$module"
packed "$module" "$module.tar.gz"
files=$(python3 -c 'import json; print(*json.load(open("bindings/js/package.json"))["files"])')
# shellcheck disable=SC2046,SC2086 # names without blanks
(cd bindings/js && cp package.json README.md $(ls $files 2> /dev/null) "$parts/package")
cp "$@" "$parts/package"
packed package "$name.tgz"
cp "$@" bindings/rust
(cd bindings/rust && CARGO_HOME=$parts/cargo CARGO_TARGET_DIR=$parts/cargo \
  cargo package --quiet --offline --no-verify --allow-dirty)
cp "$parts"/cargo/package/*.crate "$dist"
git archive --format=tar --prefix="$name/" HEAD | gzip -9n > "$dist/$name-source.tar.gz"
if grep -qsx "commit $commit" build/PROVED.txt; then
  cp build/PROVED.txt "$dist"
else
  echo "this commit was not proved here: there is no PROVED.txt"
fi
(cd "$dist" && chmod 644 -- * && sha256sum -- * > "$parts/SHA256SUMS" && mv "$parts/SHA256SUMS" . && du -ab -- *)
rm -rf "$parts"
