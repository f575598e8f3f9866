#!/bin/sh
# Tests the drop-in symbols of build/lib against the original libraries, and with programs that are
# made for these.
set -eu
cd "$(dirname "$0")/../.."
. bindings/preset.sh
begin_test
ours=$lib/libscrypt_drop_in.so
python=/usr/bin/python3 # which has Debian's packages
nm -D --defined-only "$ours" | awk '{ print $3 }' | sort | diff bindings/drop_in/symbols -
$python -B -m bindings.drop_in.test_drop_in "$ours"

# minisign makes a key with a password with libsodium, signs with this library, and rejects another
# password.
if has minisign minisign; then
  echo letter > "$room/letter"
  printf 'secret\nsecret\n' | minisign -G -f -p "$room/key.pub" -s "$room/key" > /dev/null 2>&1
  sign() {
    printf '%s\n' "$1" | LD_DEBUG=bindings LD_DEBUG_OUTPUT=$room/bindings LD_PRELOAD=$ours \
      minisign -S -s "$room/key" -m "$room/letter" > /dev/null 2>&1
  }
  sign secret
  cat "$room"/bindings.* | grep -q "to $ours .*normal symbol .crypto_pwhash_scryptsalsa208sha256'"
  minisign -V -q -p "$room/key.pub" -m "$room/letter"
  if sign wrong; then echo "minisign took a wrong password" >&2; exit 1; fi
  echo "ok called by minisign, with a key of libsodium"
fi
