#!/bin/sh
# Fails unless each library binds its names when it is loaded and is read-only after that (BIND_NOW, RELRO), has no stack that
# can be run and no code that is changed by the loader, was compiled with stack protection, has its name inside (SONAME), and
# calls its own functions (SYMBOLIC).
set -eu
for file in "$@"; do
  readelf -dlW "$file" > /dev/null # or its error ends this
  headers=$(readelf -dlW "$file")
  says() { printf '%s\n' "$headers" | grep -qE "$1"; }
  missing() { echo "$file: $1" >&2; exit 1; }
  says '\(FLAGS(_1)?\).*NOW' || missing "no BIND_NOW"
  says 'GNU_RELRO' || missing "no RELRO"
  says 'GNU_STACK.* RW +0' || missing "a stack that can be run"
  if says 'TEXTREL|\((RPATH|RUNPATH)\)'; then missing "code that is changed when it is loaded, or a path of libraries"; fi
  { nm "$file" 2> /dev/null; nm -D "$file"; } | grep -q __stack_chk_fail || missing "no stack protection"
  name=$(basename "$(readlink -f "$file")" | sed 's/\(\.so\.[0-9]*\)\..*/\1/')
  says "SONAME.*\[$name\]" || missing "no SONAME $name"
  says '\(SYMBOLIC\)' || missing "not bound to itself"
done
