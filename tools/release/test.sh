#!/bin/bash
# Tests build/dist as a user would install it, in a fresh root of Debian without the kit: its package, its archive in
# another folder, and the packages of each language, by the lines of README.md. The arm64 packages run in
# Debian's emulator, and the Windows packages in Wine. Needs root, mmdebstrap, a network, and for these
# machines the packages that `python3 -m tools.presets needs PRESET` prints.
# usage: test.sh [PRESET..]    as dist.sh was called
set -euo pipefail
cd "$(dirname "$0")/../.."
dist=$PWD/build/dist presets=${*:-native $(python3 -m tools.presets packed)}
key=$(cat crates/scrypt_tool/stdout) # the first of RFC 7914, section 12
room=$(mktemp -d)
root=$room/root
trap 'rm -rf "$room"' EXIT
expect() {
  if [ "${1%% *}" != "$key" ]; then echo "another key: $2: $1" >&2; exit 1; fi
  echo "the first key of RFC 7914: $2"
}
# With /proc, without which rustc doesn't run.
inside() {
  unshare --mount-proc --root="$root" \
    env -i PATH=/usr/sbin:/usr/bin:/sbin:/bin HOME=/root LC_ALL=C.UTF-8 sh -ec "$1" < /dev/null
}
# The lines of README.md for a language.
lines() { sed -n "/^$1/,/^[A-Z]/s/^    //p" tools/release/README.md; }
listed() { (cd "$root" && find . -path ./proc -prune -o -path ./var -prune -o -path ./tmp -prune -o -print | sort); }
tool='scrypt_tool key 4 1 1 64 ""'
# Programs in C, by pkg-config and by CMake, which print the key.
by_pkg_config='cc /tmp/check.c -o /tmp/a $(pkg-config --cflags --libs scrypt_c) && /tmp/a'
by_cmake='rm -rf /tmp/b && cmake -S /tmp/client -B /tmp/b > /dev/null && cmake --build /tmp/b > /dev/null'

(cd "$dist" && sha256sum --quiet -c SHA256SUMS)
packages=python3-venv,gcc,libc6-dev,pkg-config,cmake,make,golang-go,cargo
mmdebstrap --quiet --variant=apt --include=$packages bookworm "$root"
cp tools/release/check.* "$dist"/* "$root/tmp"
mkdir "$root/tmp/client"
sed 's|\.\./test_calls.c|/tmp/check.c|' bindings/c/tests/cmake_client/CMakeLists.txt > "$root/tmp/client/CMakeLists.txt"
listed > "$room/before"

inside 'dpkg -i /tmp/libscrypt-c*_amd64.deb' > "$room/log"
expect "$(inside "$by_pkg_config")" "C by pkg-config, with the library's Debian packages"
expect "$(inside "$by_cmake && /tmp/b/shared")" "C by CMake, with these packages"
expect "$(inside "/tmp/b/static")" "the same with the static library"
inside 'dpkg -i /tmp/scrypt-proved_*_amd64.deb' > "$room/log"
expect "$(inside "$tool")" "the program of its package"
inside 'python3 -c "import scrypt_c; h = scrypt_c.PasswordHasher(log_n=10); h.verify(h.hash(str()), str())"'
inside "$(grep -o 'dpkg -P [^`]*' tools/release/README.md)" > "$room/log"
listed | diff "$room/before" -
echo "the package hashes in Python, and all leave nothing when they are purged"

inside 'mkdir /opt/it && tar xzf /tmp/*-linux_x86_64.tar.gz --strip-components=1 -C /opt/it && mv /opt/it /opt/moved'
moved='export PKG_CONFIG_PATH=/opt/moved/lib/pkgconfig CMAKE_PREFIX_PATH=/opt/moved LD_LIBRARY_PATH=/opt/moved/lib;'
expect "$(inside "/opt/moved/bin/$tool")" "the program of the archive, moved"
expect "$(inside "$moved $by_pkg_config")" "C by pkg-config, with the archive"
expect "$(inside "$moved $by_cmake && /tmp/b/shared")" "C by CMake, with the archive"

inside "cd /tmp && $(lines Python) > /dev/null && venv/bin/python -c 'import scrypt_c; scrypt_c.PasswordHasher().hash(str())'"
expect "$(inside "mkdir -p /tmp/go/client && cd /tmp/go/client && cp /tmp/scrypt-go-* /tmp/check.go . &&
  go mod init example.com/client 2> /dev/null; $(lines Go); go run check.go")" "Go, with the module"
expect "$(inside "mkdir -p /tmp/rust/client && cd /tmp/rust/client &&
  cp /tmp/*.crate . && cargo init --quiet --vcs none; $(lines Rust); cp /tmp/check.rs src/main.rs &&
  cargo run --quiet")" "Rust, with the crate"
if command -v node > /dev/null; then
  mkdir -p "$room/node/node_modules"
  tar xzf "$dist"/*.tgz -C "$room/node/node_modules"
  mv "$room/node/node_modules/package" "$room/node/node_modules/scrypt-proved"
  echo 'import { scrypt } from "scrypt-proved"; const of = { N: 16, r: 1, p: 1, dkLen: 64 };
    console.log(Buffer.from(await scrypt("", "", of)).toString("hex"));' > "$room/node/a.mjs"
  expect "$(node "$room/node/a.mjs")" "Node $(node --version), with the package of npm"
fi

for PRESET in ${presets#native}; do
  . bindings/preset.sh
  mkdir "$room/$PRESET"
  cd "$room/$PRESET"
  case $system in
    linux)
      tar xzf "$dist"/*-linux_"$machine".tar.gz --strip-components=1
      expect "$($emulator bin/scrypt_tool key 4 1 1 64 "" < /dev/null)" "the archive for $PRESET, in an emulator"
      ;;
    windows)
      python3 -m zipfile -e "$dist"/*-windows_x86_64.zip . && mv scrypt-*/* .
      x86_64-w64-mingw32-gcc "$OLDPWD/tools/release/check.c" -Iinclude lib/libscrypt_c.dll.a -o bin/check.exe
      expect "$(WINEDEBUG=-all WINEPREFIX=$room/wine wine bin/check.exe | tr -d '\r')" "the archive for Windows, by the DLL in Wine"
      ;;
  esac
  cd "$OLDPWD"
done
echo "build/dist: tried in a fresh root"
