#!/bin/sh
# Prints each function of the proved code that has more divisions than are known here, and fails if there is one. How
# long a division takes depends on its operands, so these must not be secret, and memcheck does not look at it.
# usage: divisions.sh OBJECT..    with the target's OBJDUMP
set -eu
# They have a copy of interleaved_chunks (crates/scrypt/src/buffers/lens.rt), with two divisions of 64 bits, or of 32 if
# that is enough: the lengths of buffers, by those of a table and a scratch.
of_lengths='interleaved_chunks verify_in_buffers verify_begin verify_batch_with_buffers kdf_with_buffers
  with_buffers hash_phc_with_buffers hash_mcf_with_buffers key_begin key_step'
# Of BufferLens::tables_within, there: the limit on memory, by the bytes of a table.
of_limits='allocate_within kdf hash_cost params_cost'

for object in "$@"; do
  "$OBJDUMP" -dr --no-show-raw-insn "$object" | awk -v object="$object" -v lengths="$of_lengths" -v limits="$of_limits" '
    BEGIN {
      for (i = split(lengths, names); i > 0; i--) most[names[i]] = 4
      for (i = split(limits, names); i > 0; i--) most[names[i]] = 1
    }
    /^[0-9a-f]+ <.*>:$/ {
      name = $2
      gsub(/^<|>:$|::<#[0-9a-f]*>/, "", name)
      sub(/.*::/, "", name)
      sub(/^(proved_)?(scrypt_)?/, "", name) # a call and the function that it only calls have one name
    }
    $2 ~ /^[a-z]*(div|sqrt)/ || /R_.*(div|mod)[a-z]*3/ { count[name]++ }
    END {
      for (name in count) {
        all += count[name]
        if (count[name] > most[name]) wrong = wrong " " name
      }
      if (all == 0) wrong = " none at all"
      if (wrong != "") print object ": divisions:" wrong
      exit wrong != ""
    }'
done
