#!/bin/bash
# build.sh FOLDER: builds plain_replay over the machine that plain_threads/make_plain.py and its build.sh made there.
set -e
here=$(dirname "$(realpath "$0")")
made=$1/lib
externs() { for file in "$made"/lib*.rlib; do name=$(basename "$file" .rlib); echo --extern "${name#lib}=$file"; done; }
rustc --edition 2024 -C opt-level=3 -C codegen-units=1 -C panic=abort --cap-lints allow -L "$made" -C lto=fat \
    $(externs) -o "$1/plain_replay" "$here/replay.rs"
