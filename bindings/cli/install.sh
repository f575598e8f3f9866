#!/bin/sh
# Installs the linked program with its man page and its completion, and prints their paths without DESTDIR.
# usage: install.sh PROGRAM PREFIX    with DESTDIR as make has it
set -eu
put() { # MODE FILE PATH
  install -D -m "$1" "$2" "${DESTDIR:-}$3"
  printf '%s\n' "$3"
}
here=${0%/*}
put 755 "$1" "$2/bin/scrypt_tool"
put 644 "$here/scrypt_tool.1" "$2/share/man/man1/scrypt_tool.1"
put 644 "$here/scrypt_tool.bash" "$2/share/bash-completion/completions/scrypt_tool"
