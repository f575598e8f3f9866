#!/bin/sh
# Tests the Python package with the library of build/lib, with Debian's Django and passlib, and as
# pip installs it. For Windows it only builds the wheel, because Debian has no Python for Windows.
set -eu
cd "$(dirname "$0")/../.."
. bindings/preset.sh
begin_test
cd bindings/python/tests
python=/usr/bin/python3 # which has Debian's packages
export PYTHONDONTWRITEBYTECODE=1 SCRYPT_C_LIBRARY="$lib" PYTHONPATH="$PWD/.."
# A run of tests says only how many there are.
quiet() { "$@" > "$room/log" 2>&1 || { cat "$room/log"; exit 1; }; grep '^Ran ' "$room/log" || true; }
packed() { quiet $python -m hatchling build -t "$@"; }
if [ "$system" != windows ]; then
  quiet $python -W error -m unittest test_hasher test_keys test_library test_texts test_threads test_vectors
  imports() { $python -c "import $1" 2> /dev/null || { "$top/tools/lacks" "$1" "python3-$1"; return 1; }; }
  for it in django passlib; do if imports $it; then quiet $python -m unittest test_$it; fi; done
  imports bcrypt || true # the tests of Django leave out what needs it
fi
if ! $python -c 'import venv, ensurepip, hatchling' 2> /dev/null; then
  "$top/tools/lacks" "what makes wheels" python3-venv python3-hatchling
  exit
fi
cd ..
if has musl-gcc musl-tools; then
  musl-gcc -shared -o "$room/libscrypt_c.so" \
    -Wl,--whole-archive "$lib/libscrypt_c.a" -Wl,--no-whole-archive
  (SCRYPT_C_LIBRARY="$room/libscrypt_c.so" && packed wheel -d "$room")
  rm "$room"/scrypt_c-*-py3-none-musllinux_1_2_x86_64.whl
fi
mkdir "$room/before_make_lib"
cp -r README.md pyproject.toml hatch_build.py scrypt_c "$room/before_make_lib"
rm "$room/before_make_lib/scrypt_c/declared.py"
if said=$(cd "$room/before_make_lib"; $python -m hatchling build -t wheel 2>&1); then exit 1; fi
case "$said" in *"first run \`make lib\`"*) ;; *) echo "before make lib: $said"; exit 1 ;; esac
packed sdist -d "$room/source"
unset SCRYPT_C_LIBRARY PYTHONPATH
(cd "$room/source" && tar xzf ./*.tar.gz && cd scrypt_c-*/ && packed wheel -d "$room")
if [ "$system" = windows ]; then
  $python -m zipfile -e "$room"/*-win_amd64.whl "$room/unpacked"
  cmp "$room/unpacked/scrypt_c/scrypt_c.dll" "$lib/scrypt_c.dll"
  exit
fi
$python -m venv "$room/venv"
"$room/venv/bin/pip" install --quiet --no-index "$room"/*.whl
cmp "$room"/venv/lib/python3*/site-packages/scrypt_c/libscrypt_c.so.? "$lib/libscrypt_c.so"
(cd tests && quiet "$room/venv/bin/python" -m unittest test_hasher)
echo "ok installed by pip from the wheel of the source archive"
