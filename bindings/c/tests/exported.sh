#!/bin/sh
# Compares the names that a library exports with the calls that the header declares, as the
# compiler lists them: an independent list, because the linker exports the names that CMake finds in
# the text of the header.
# usage: exported.sh HEADER LIBRARY    with the target's CC, NM and OBJDUMP
set -eu
export LC_ALL=C
room=$(mktemp -d)
trap 'rm -r "$room"' EXIT
"$CC" -x c -fsyntax-only -aux-info "$room/aux" "$1"
sed -n "s|^/\* $1:.*[ *]\([a-z_0-9]*\) (.*|\1|p" "$room/aux" | sort > "$room/declared"
test -s "$room/declared"
case $2 in
  *.dll) "$OBJDUMP" -p "$2" | sed -n '/^\[Ordinal\/Name Pointer\]/,/^$/s/.*\[ *[0-9]*\] \(.*\)/\1/p' ;;
  *.a) "$NM" -g --defined-only "$2" | awk 'NF == 3 { print $3 }' ;;
  *) "$NM" -D --defined-only "$2" | awk '$2 != "A" { sub(/@.*/, "", $3); print $3 }' ;; # A is the version itself
esac | sort > "$room/exported"
diff "$room/declared" "$room/exported"
