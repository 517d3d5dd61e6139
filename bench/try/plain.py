#!/usr/bin/env python3
"""Writes crates of this repository as plain Rust, which rustc compiles in seconds.

    [SOURCES=CHECKOUT] plain.py FOLDER [--settings]    FOLDER gets a workspace of Cargo

Contracts, ghost items and comments are left out, and a crate `plain` stands for what Rattle's std
has and Rust's has not: vectors that are given an allocator, and a push that can fail. All else is
the text of crates/ as it stands there, so this copy can't grow old. With --settings constants of
the search that are numbers (of the files in SETTINGS) are read from the environment, by the names
of file and constant, as sweeps.FIRST_SWEEPS. Other sources are taken where SOURCES names them.
"""

import glob
import os
import re
import shutil
import sys

HERE = os.path.dirname(os.path.realpath(__file__))
TOP = os.environ.get("SOURCES") or os.path.dirname(os.path.dirname(HERE))
WANTED = ["al_round", "al_simul", "net_build", "vc_live"]
# Where constants become settings: files of crates.
SETTINGS = {
    "al_kick": ["round", "kicks", "negotiate", "settling", "search"],
    "al_round": ["sweeps", "raised"],
    "net_ascent": ["sweep", "pace"],
}
STRANGERS = {"smallvec", "arrayvec", "thiserror"}
OPENED, CLOSED = "{", "}"


def without_comments(text):
    """The text without comments; strings and characters stay."""
    pattern = r'"(?:\\.|[^"\\])*"|\'(?:\\.|[^\\\'])\'|//[^\n]*'
    return re.sub(pattern, lambda it: "" if it[0].startswith("//") else it[0], text)


def closing(text, at):
    """Where the brace that opens at a place is closed."""
    depth = 0
    for place in range(at, len(text)):
        depth += (text[place] == OPENED) - (text[place] == CLOSED)
        if depth == 0:
            return place
    raise ValueError("a brace is not closed")


def without_blocks(text, head):
    """The text without each block in braces that follows what a pattern matches."""
    while found := re.search(head, text):
        text = text[: found.start()] + text[closing(text, found.end() - 1) + 1 :]
    return text


def without_ghosts(text):
    """The text without ghost items and ghost fields."""
    while found := re.search(r"\bghost\b", text):
        depth, at = 0, found.end()
        while text[at] not in ";," or depth:
            depth += (text[at] == OPENED) - (text[at] == CLOSED)
            at += 1
        text = text[: found.start()] + text[at + 1 :]
    return text


def settings(text, file):
    """The text of a file with its constants that are whole numbers asked for by functions."""
    names = re.findall(r"^const ([A-Z_0-9]+): (?:u8|u32|u64|usize|i32|i128) =", text, re.M)
    for name in names:
        pattern = rf"^const {name}: (\w+) = ([^;]+);"
        kind, value = re.search(pattern, text, re.M).groups()
        text = re.sub(pattern, "", text, flags=re.M)
        text = re.sub(rf"(?<![\w:])(?<![^.]\.){name}\b(?!\()", f"{name}()", text)
        value = re.sub(rf"\b({'|'.join(names)})\b(?!\()", r"\1()", value)
        text += (
            f"\n#[inline(always)]\nfn {name}() -> {kind} {{\n"
            f"    static KEPT: std::sync::OnceLock<{kind}> = std::sync::OnceLock::new();\n"
            f'    *KEPT.get_or_init(|| plain::setting("{file}.{name}", {value}))\n}}\n'
        )
    return text


def plain(text, settings_of=None):
    """The text of a file as Rust's, with constants as settings where it has a name for them."""
    text = without_comments(text)
    text = re.sub(r"#!?\[tactic[^\]]*\]", "", text)
    text = without_blocks(text, r"\b(?:requires|ensures)\b(?:\s+\w+)?\s*\{")
    text = without_blocks(text, r"\bimpl(?:<[^{]*?>)? Model for [^{]*\{")
    text = without_ghosts(text)
    text = re.sub(r"^.*use std::marker::Model;\n", "", text, flags=re.M)
    text = re.sub(r"^(?:pub )?mod laws;\n", "", text, flags=re.M)
    text = re.sub(r"(\bderive\([^)]*?)(?:, )?\bDrop\b", r"\1", text)
    text = re.sub(r"\bderive\(, ", "derive(", text)
    text = text.replace("std::default::MadeWith", "plain::MadeWith")
    text = text.replace("std::alloc::", "plain::")
    text = text.replace("vec![in ", "plain::vec_in![in ")
    text = text.replace(".collect(alloc)", ".collect_in(alloc)")
    text = text.replace("Box::into_inner(inner)", "*inner.0")
    if settings_of:
        text = settings(text, settings_of)
    return "#[allow(unused_imports)]\nuse plain::prelude::*;\n" + text


def needs():
    """Of each crate which others it needs."""
    with open(f"{TOP}/crates.txt", encoding="utf-8") as file:
        lines = [line.split(":") for line in file if line.strip() and line[0] != "#"]
    return {name.strip(): rest.split() for name, rest in lines}


def below(names, known):
    """Crates with all that they need, the lowest first."""
    found = []
    for name in names:
        for other in below([it for it in known.get(name, []) if it in known], known) + [name]:
            if other not in found:
                found.append(other)
    return found


def write(path, text):
    """Writes a file, if it has not that text already: Cargo looks at its time."""
    os.makedirs(os.path.dirname(path), exist_ok=True)
    if os.path.exists(path):
        with open(path, encoding="utf-8") as file:
            if file.read() == text:
                return
    with open(path, "w", encoding="utf-8") as file:
        file.write(text)


def manifest(name, others):
    lines = ["[package]", f'name = "{name}"', 'version = "0.0.0"', 'edition = "2024"', ""]
    lines += ["[dependencies]"] + [f'{it} = {{ path = "../{it}" }}' for it in others]
    return "\n".join(lines) + "\n"


def write_crate(folder, name, others, with_settings):
    write(f"{folder}/{name}/Cargo.toml", manifest(name, ["plain", *others]))
    for path in sorted(glob.glob(f"{TOP}/crates/{name}/src/**/*.rt", recursive=True)):
        file = os.path.relpath(path, f"{TOP}/crates/{name}/src").removesuffix(".rt")
        if file.endswith("laws"):
            continue
        with open(path, encoding="utf-8") as source:
            text = source.read()
        is_set = with_settings and file in SETTINGS.get(name, [])
        text = plain(text, file if is_set else None)
        if file == "lib":
            text = "#![feature(portable_simd)]\n#![allow(warnings)]\n" + text
        write(f"{folder}/{name}/src/{file}.rs", text)


def main():
    folder = sys.argv[1]
    with_settings = "--settings" in sys.argv
    known = needs()
    names = below(WANTED, known)
    for name in names:
        others = [it for it in known[name] if it in known]
        others += [it for it in known[name] if it in STRANGERS]
        write_crate(folder, name, others, with_settings)
    for name in ["plain", *sorted(STRANGERS), "rounds"]:
        shutil.copytree(f"{HERE}/{name}", f"{folder}/{name}", dirs_exist_ok=True)
    write(f"{folder}/rounds/src/visits.rs", visits(with_settings))
    members = ", ".join(f'"{it}"' for it in ["plain", *sorted(STRANGERS), *names, "rounds"])
    profile = '[profile.release]\nopt-level = 3\nlto = "fat"\npanic = "abort"\ndebug = 1\n'
    head = f'[workspace]\nresolver = "2"\nmembers = [{members}]'
    write(f"{folder}/Cargo.toml", f"{head}\n\n{profile}")


def visits(with_settings):
    with open(f"{TOP}/crates/pra_compile/src/visits.rt", encoding="utf-8") as source:
        made = plain(source.read(), "visits" if with_settings else None)
    return made.replace("use cert_form::NamedCode", "use crate::code::NamedCode")


main()
