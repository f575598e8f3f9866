#!/bin/sh
# Opens key files over build/lib, also some that the programs age and scrypt make now.
set -eu
cd "$(dirname "$0")"
export PATH="/usr/bin:$PATH" PYTHONPATH=../../bindings/python SCRYPT_C_LIBRARY=../../build/lib
if ! python3 -c 'import Cryptodome' 2> /dev/null; then
  ../../tools/lacks Cryptodome python3-pycryptodome
  exit 77
fi
for program in age scrypt; do
  if ! command -v $program > /dev/null; then ../../tools/lacks $program $program; fi
done
python3 -B test_key_files.py "$@"
