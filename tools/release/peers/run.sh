#!/bin/bash
# Runs the scrypt tests of other projects, first over the original and then over this library, and
# compares what they print, line by line. Debian's packages have the tests; they are unpacked in a
# folder of mktemp, nothing is installed, and root is not needed. A suite that cannot be fetched is
# named and left out. Needs `make lib`, gcc, Debian's python3 and a network.
# usage: run.sh LIBRARY    build/lib/libscrypt_c.so; the other libraries and the header are beside it
set -euo pipefail
lib=$(dirname "$(realpath "${1:?the path of libscrypt_c.so}")")
cd "$(dirname "$0")/../../.."
top=$PWD here=$PWD/tools/release/peers failed=0 ran=0
room=$(mktemp -d)
trap 'rm -rf "$room"' EXIT
cd "$room"
export PYTHONDONTWRITEBYTECODE=1 SCRYPT_C_LIBRARY="$lib"
export PYTHONPATH="$room/usr/lib/python3/dist-packages:$top/bindings/python"

# The lists of packages and sources of this release, apart from the lists of the machine.
mkdir -p apt/lists/partial apt/archives/partial
release=$(sed -n 's/^VERSION_CODENAME=//p' /etc/os-release)
for kind in deb deb-src; do
  echo "$kind [arch=$(dpkg --print-architecture) signed-by=/usr/share/keyrings/debian-archive-keyring.gpg]" \
    "http://deb.debian.org/debian $release main"
done > apt/sources
cat > apt/conf << END
Dir::Etc::sourcelist "$room/apt/sources";
Dir::Etc::sourceparts "/dev/null";
Dir::State::Lists "$room/apt/lists";
Dir::Cache "$room/apt";
Acquire::Languages "none";
APT::Sandbox::User "root";
END
export APT_CONFIG=$room/apt/conf
apt-get -qq update || echo "Debian's lists of packages cannot be fetched"

# fetch SUITE [source NAME] PACKAGE ..    unpacks the sources into the folder NAME, and packages here
fetch() {
  local suite=$1 source='' file
  if [ "$2" = source ]; then source=$3; set -- "$1" "${@:4}"; fi
  if ! { { [ -z "$source" ] || apt-get -qq source --download-only --tar-only "$source"; } &&
    apt-get -qq download "${@:2}"; } > log 2>&1; then
    grep '^E:' log || true
    "$top/tools/lacks" "$suite" ${source:+"$source"} "${@:2}"
    return 1
  fi
  for file in *.deb; do dpkg -x "$file" . && rm "$file"; done
  if [ -n "$source" ]; then mkdir "$source" && tar xf "$source"_*.orig.tar.* -C "$source" --strip-components=1; fi
}
# compare SUITE PEER [PATTERN REASON]    compares the lines of `original` and `ours`, where those of
# the pattern may differ, for this reason
compare() {
  local all differ other
  diff -a original ours > differences || true
  all=$(wc -l < original) ran=1
  differ=$(grep -ac '^<' differences || true)
  other=$(grep -a '^>' differences | grep -avcE "${3:-^$}" || true)
  if [ "$all" = 0 ] || grep -aq '^FAIL' original; then
    echo "$1: FAILS with $2 itself"
    grep -am 20 '^FAIL' original || true
    failed=1
  elif [ "$(wc -l < ours)" != "$all" ] || [ "$other" != 0 ]; then
    echo "$1: DIFFERS from $2"
    head -n 20 differences
    failed=1
  else echo "$1: $((all - differ)) of $all, as with $2${3:+; $differ $4}"; fi
}
# of_test COMMAND ..    the lines of a test, and one more if its status is not 0
of_test() { "$@" || echo "FAIL: status $?"; }
# preloaded COMMAND ..    the same with the drop-in library, to which calls have to go
preloaded() {
  rm -f bindings.*
  LD_DEBUG=bindings LD_DEBUG_OUTPUT=bindings LD_PRELOAD=$lib/libscrypt_drop_in.so of_test "$@"
  if ! grep -q "to $lib/libscrypt_drop_in.so .*scrypt" bindings.*; then echo "FAIL: not called"; fi
}
# build LIBRARY ARGUMENT ..    a test with a library that was fetched
build() {
  local file
  file=$(find "$room" -name "$1")
  gcc -w -O1 "${@:2}" "$file" "-Wl,-rpath,${file%/*}"
}

if fetch "the suite of libsodium" source libsodium libsodium23 libsodium-dev; then
  for test in pwhash_scrypt pwhash_scrypt_ll; do # each compares what it writes with the file .exp
    build libsodium.so.23 -DTEST_SRCDIR='"libsodium/test/default"' -Iusr/include -Ilibsodium/test/quirks \
      libsodium/test/default/$test.c -o test
    { of_test ./test && cat $test.res; } > original
    { preloaded ./test && cat $test.res; } > ours
    compare "libsodium $test" libsodium
  done
fi

if fetch "the suite of libscrypt" source libscrypt libscrypt0; then
  build libscrypt.so.0 libscrypt/{main,b64,crypto_scrypt-hexconvert}.c -o test
  results() { sed -nE 's/(Generated) .*/\1/; /SUCC|Succ|FAIL/p'; } # without the random salt
  of_test ./test | results > original
  preloaded ./test | results > ours
  compare "libscrypt main.c" libscrypt
fi

if fetch "the suite of libxcrypt" source libxcrypt libcrypt1 libcrypt-dev; then
  { # in place of its header: no hash but $7$
    printf '#include <%s.h>\n' assert errno signal stdbool stdint stdio stdlib string unistd sys/mman crypt
    grep -oE 'INCLUDE_[a-z0-9_]+' libxcrypt/test/ka-table.inc | sort -u |
      sed 's/.*/#define & 0/; s/_scrypt 0/_scrypt 1/'
    printf '#define %s\n' 'ENABLE_FAILURE_TOKENS 1' 'ARRAY_SIZE(a) (sizeof(a) / sizeof((a)[0]))' 'ARG_UNUSED(x) x' \
      'MIN(a, b) ((a) < (b) ? (a) : (b))' 'MAX(a, b) ((a) > (b) ? (a) : (b))'
  } > crypt-port.h
  both() { # SOURCE ARGUMENT ..    the lines about $7$: other hashes are left out, and fail in badsalt
    local parts=(-D_GNU_SOURCE -DTEST_scrypt -I. -Iusr/include "libxcrypt/test/$1")
    build libcrypt.so.1 "${parts[@]}" -o test
    gcc -w -O1 "${parts[@]}" -I"$lib" "$here/crypt.c" "$lib/libscrypt_c.a" -o our_test
    of_test ./test "${@:2}" | grep -aE '[$]7[$]|status 1..' > original
    of_test ./our_test "${@:2}" | grep -aE '[$]7[$]|status 1..' > ours
  }
  both ka-tester.c
  compare "libxcrypt ka-table" libxcrypt
  both badsalt.c -v
  compare "libxcrypt badsalt" libxcrypt '^> FAIL: [$]7[$].{11}[^ ]*:.* invalid[)]: expected NULL, got [$]7[$]' \
    'salts with a colon are accepted: docs/MIGRATION.md, "Hashes that only one side accepts"'
fi

of_python() { # SUITE PEER [FOLDER]
  of_test /usr/bin/python3 "$here/suites.py" peer "${@:3}" > original 2> log
  of_test /usr/bin/python3 "$here/suites.py" scrypt_c "${@:3}" > ours 2>> log
  compare "$1" "$2"
  if grep -q '^FAIL: status' original ours; then cat log; fi
}
version=$(/usr/bin/python3 -c 'import sys; print("%d.%d" % sys.version_info[:2])')
if fetch "the suite of CPython" "libpython$version-testsuite"; then
  of_python "CPython test_scrypt" hashlib "$PWD/usr/lib/python$version/test"
fi
if fetch "the suite of passlib" python3-passlib; then of_python "passlib HandlerCase and StdlibScryptTest" passlib; fi

if [ $ran = 0 ]; then exit 77; fi
exit $failed
