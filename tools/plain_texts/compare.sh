#!/usr/bin/env bash
# Instructions a byte of reading and writing texts, by callgrind: compare.sh READ_TRACE WRITE_TRACE READ_SCRIPT WRITE_SCRIPT,
# each a command line that reads a text from standard input, and for the writers prints it again.
# The count is the difference of a large text and a small one over their bytes; a writer's is less its reader's.
#
#   rustc -O --edition 2024 -o /tmp/texts tools/plain_texts/texts.rs
#   tools/plain_texts/compare.sh '/tmp/texts read-trace' '/tmp/texts write-trace' '/tmp/texts read-script' '/tmp/texts write-script'
set -euo pipefail
here=$(cd "$(dirname "$0")" && pwd)
folder=$(mktemp -d)
trap 'rm -r "$folder"' EXIT
python3 "$here/make_texts.py" "$folder"

# instructions COMMAND TEXT
instructions() {
  # shellcheck disable=SC2086
  valgrind --tool=callgrind --callgrind-out-file=/dev/null $1 < "$folder/$2" 2> "$folder/log" > "$folder/out"
  awk '/Collected/ { print $NF }' "$folder/log"
}

# a_byte KIND READER WRITER
a_byte() {
  local read_small read_large write_small write_large bytes
  bytes=$(($(stat -c %s "$folder/$1_large") - $(stat -c %s "$folder/$1_small")))
  read_small=$(instructions "$2" "$1_small")
  read_large=$(instructions "$2" "$1_large")
  write_small=$(instructions "$3" "$1_small")
  write_large=$(instructions "$3" "$1_large")
  cmp "$folder/out" "$folder/$1_large"
  awk -v r=$((read_large - read_small)) -v w=$((write_large - write_small)) -v b="$bytes" -v k="$1" \
    'BEGIN { printf "read_%s %.2f\nwrite_%s %.2f\n", k, r / b, k, (w - r) / b }'
}

a_byte trace "$1" "$2"
a_byte script "$3" "$4"
