#!/bin/sh
# Tests the Go module with the library of build/lib; with PRESET=windows only its tests, in Wine.
set -eu
cd "$(dirname "$0")/../.."
. bindings/preset.sh
begin_test
has go golang-go && has "$CC" gcc || exit 77
export GOPROXY=off
quiet() { "$@" > "$room/log" 2>&1 || { cat "$room/log"; exit 1; }; }
cp "$lib/libscrypt_c.a" "bindings/go/$bundled"
cp "$lib/scrypt_c.h" bindings/go/
cd bindings/go
if [ "$system" = windows ]; then
  quiet env GOOS=windows CGO_ENABLED=1 CC="$CC" go test -count=1 -exec "$emulator" .
  echo "called from Go, in Wine"
  exit
fi
quiet go test -count=1 -timeout 1h -vet=all -race -v .
echo "$(grep -c '^--- PASS' "$room/log") passed, 0 failed"

# Linked statically, as for an empty image; and without cgo.
quiet go test -c -tags netgo,osusergo -ldflags '-extldflags -static' -o "$room/program" .
quiet "$room/program" -test.run Example
if ldd "$room/program" > /dev/null 2>&1; then echo "the program is not static" >&2; exit 1; fi
if CGO_ENABLED=0 go build . 2> "$room/log"; then exit 1; fi
grep -q 'undefined: scrypt_needs_cgo' "$room/log"
echo "ok called from Go, also statically, with no report by go vet and the race detector"
