#!/bin/bash
# build.sh FOLDER: builds the crates that make_plain.py wrote there, in their order, and then plain_threads.
set -e
here=$(dirname "$(realpath "$0")")
made=$1/lib
mkdir -p "$made"
externs() { for file in "$made"/lib*.rlib; do name=$(basename "$file" .rlib); echo --extern "${name#lib}=$file"; done; }
flags="--edition 2024 -C opt-level=3 -C codegen-units=1 -C panic=abort --cap-lints allow -L $made"
rustc $flags --crate-type rlib --crate-name kit --out-dir "$made" "$here/kit.rs"
for crate in tl_types machine_types elf_loader rv32_decode amo_unit rv32_exec backing_memory tilelink_channels store_buffer reservations \
    client_cache directory hart trace_recorder memory_model machine_model word_accesses machine_parts coherent_machine; do
    rustc $flags --crate-type rlib --crate-name $crate --out-dir "$made" $(externs) "$1/$crate/lib.rs"
done
rustc $flags -C lto=fat $(externs) -o "$1/plain_threads" "$here/threads.rs"
