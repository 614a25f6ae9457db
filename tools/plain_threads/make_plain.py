#!/usr/bin/env python3
"""Writes the machine's crates as plain Rust: make_plain.py FOLDER. Contracts, ghosts, proofs and tests are left
out; what the code takes of Rattle's library comes from the crate `kit` (kit.rs), where an allocator is nothing."""
import os
import re
import sys

HERE = os.path.dirname(os.path.realpath(__file__))
ROOT = os.environ.get("ROOT") or os.path.dirname(os.path.dirname(HERE))
CRATES = """tl_types machine_types rv32_decode amo_unit rv32_exec elf_loader backing_memory tilelink_channels store_buffer reservations
client_cache directory hart trace_recorder memory_model machine_model word_accesses machine_parts coherent_machine""".split()
CLAUSES = ("requires", "ensures")


def end_of_string(text, at):
    """The place behind the string or character that begins here, or None where it is a lifetime."""
    if text[at] == '"':
        at += 1
        while text[at] != '"':
            at += 2 if text[at] == "\\" else 1
        return at + 1
    found = re.match(r"'(\\.[^']*|[^'\\])'", text[at:])
    return at + found.end() if found else None


def end_of_braces(text, at):
    """The place behind the braces that open here; what stands in them is not Rust."""
    depth = 0
    while True:
        if text.startswith("--", at) or text.startswith("//", at):
            at = text.index("\n", at)
        elif text[at] == "{":
            depth += 1
        elif text[at] == "}":
            depth -= 1
            if depth == 0:
                return at + 1
        at += 1


def end_of_ghost(text, at):
    """The place behind a ghost item: its `;`, its `,`, or its last braces."""
    depth = 0
    while True:
        if text[at] == "{":
            at = end_of_braces(text, at)
            rest = re.match(r"\s*([=;,])?", text[at:])
            if rest[1] is None:
                return at
            at += rest.end()
            if rest[1] in ";,":
                return at
            continue
        if text[at] == ";":
            return at + 1
        at += 1


def without_ghosts(text):
    out, at = [], 0
    while at < len(text):
        if text.startswith("//", at):
            end = text.find("\n", at)
            end = len(text) if end < 0 else end
            out.append(text[at:end])
            at = end
            continue
        if text[at] in "\"'":
            end = end_of_string(text, at)
            if end:
                out.append(text[at:end])
                at = end
                continue
        word = re.match(r"[A-Za-z_]\w*", text[at:])
        if not word:
            out.append(text[at])
            at += 1
            continue
        if word[0] in CLAUSES:
            clause = re.match(r"\w+\*?\s*(\w+\s*)?\{", text[at:])
            at = end_of_braces(text, at + clause.end() - 1)
            continue
        if word[0] == "ghost":
            if out[-2:] == ["pub", " "]:
                del out[-2:]
            at = end_of_ghost(text, at)
            continue
        out.append(word[0])
        at += word.end()
    return "".join(out)


def without_blocks(text, head):
    """Without the items whose head matches."""
    while found := re.search(head, text, re.M):
        text = text[: found.start()] + text[end_of_braces(text, text.index("{", found.start())) :]
    return text


USES = [
    (r"use std::marker::Model;", ""),
    (r"use thiserror::Error;", ""),
    (r"use std::alloc::", "use kit::alloc::"),
    (r"use std::sync::ledger", "use kit::ledger"),
    (r"use std::marker::Brand;", "use kit::ledger::Brand;"),
    (r"use std::collections::VecDeque;", "use kit::VecDeque;"),
    (r"use std::default::MadeWith;", ""),
    (r"use arrayvec::", "use kit::"),
    (r"use bitflags::", "use kit::bitflags::"),
    (r"use byteorder::", "use kit::byteorder::"),
]
CHANGES = [
    (r"#!?\[tactic[^\n]*\]\n", ""),
    (r"#\[rattlefmt::skip\]\n", ""),
    (r"\s*#\[error\([^\n]*\)\]", ""),
    (r"#\[cfg\(test\)\]\s*mod tests;", ""),
    (r"fn fmt<W: (fmt::)?Write>\(&self, f: &mut fmt::Formatter<W>\)", "fn fmt(&self, f: &mut fmt::Formatter<'_>)"),
    (r"(?<=\S)[ \n]*\n[ \n]*\n(?=\s*\{)", "\n"),
    (r"\n([ \t]*\n)+", "\n\n"),
    (r"(Result<Self, AllocError>\s*\{\s*)self\.clone\(\)", r"\1Ok(self.clone())"),
    (r"vec!\[in ", "kit::vec_in!["),
    (r"\.collect\(alloc\)", ".collect_in(alloc)"),
    (r"\.iter\(\)\s*\.copied\(\)\s*\.collect_in", ".iter().copied().collect_in"),
]


def derives(found):
    kept = [it for it in re.split(r",\s*", found[1].strip().rstrip(",")) if it not in ("Drop", "Error")]
    return f"#[derive({', '.join(kept)})]" if kept else ""


def plain(text):
    text = without_ghosts(text)
    text = without_blocks(text, r"^impl(<[^\n]*>)? Model for ")
    text = without_blocks(text, r"^impl(<[^\n]*>)? MadeWith")
    # what Rust drops by itself
    text = without_blocks(text, r"^(//[^\n]*\n)?impl(<[^\n]*>)? Drop for ")
    for old, new in USES + CHANGES:
        text = re.sub(old, new, text)
    text = re.sub(r"#\[derive\(([^)]*)\)\]", derives, text)
    # the comments of the file's head stand before anything else
    head = re.match(r"(//[^\n]*\n)*", text).end()
    return text[:head] + "#[allow(unused_imports)]\nuse kit::prelude::*;\n" + text[head:]


def main(folder):
    for crate in CRATES:
        top = f"{ROOT}/crates/{crate}/src"
        for at, _, files in os.walk(top):
            for file in files:
                if not file.endswith(".rt") or "tests" in os.path.relpath(f"{at}/{file}", top):
                    continue
                with open(f"{at}/{file}", encoding="utf-8") as it:
                    text = plain(it.read())
                to = f"{folder}/{crate}/{os.path.relpath(at, top)}/{file[:-3]}.rs"
                os.makedirs(os.path.dirname(to), exist_ok=True)
                with open(to, "w", encoding="utf-8") as it:
                    it.write(text)


main(sys.argv[1])
