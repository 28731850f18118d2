#!/usr/bin/env python3
"""Writes crates of this repository as plain Rust, without contracts, as a workspace that cargo builds.

    bench/native/strip.py FOLDER

For profiles and experiments alone: what it builds has no proof, no checks of overflow, and aborts for want of memory. It
runs `close` on a game and a certificate in some seconds after an edit, where the proof of the same edit takes minutes.
FOLDER/target/release/closer [ROUNDS] reads both from standard input and writes the certificate. FOLDER/target/release/stager
measures stage programs, advice and visits (bench/stage); for it each run of the simplex is timed apart.
"""
import pathlib
import re
import sys

TOP = pathlib.Path(__file__).resolve().parents[2]
HERE = pathlib.Path(__file__).resolve().parent
CRATES = [
    "scaled_num", "text_words", "game_model", "belief", "alpha_set", "point_set", "controller", "simplex", "stage_game",
    "backup", "hsvi_trial", "closing", "cert_text", "game_text",
]
# Programs, by name: where their source stands, and the crates that they call.
DRIVERS = {
    "closer": (HERE / "closer.rs", ["game_text", "cert_text", "closing"]),
    "stager": (
        TOP / "bench" / "stage" / "stager.rs",
        ["game_text", "cert_text", "controller", "scaled_num", "simplex", "belief", "alpha_set", "point_set", "stage_game", "backup", "hsvi_trial", "game_model"],
    ),
}
# Each pattern begins a piece whose last character is an open brace; the piece goes up to the brace that closes it.
BLOCKS = [
    r"^impl(<[^>]*>)? Model for [^{]*\{",
    r"^[ \t]*ghost [A-Za-z_]+ *(:[^=\n{]*)?= *\{",
    r"^[ \t]*(requires|ensures)( +[A-Za-z_0-9]+)? *\{",
    r"^[ \t]*(pub )?ghost [A-Za-z_]+ *: *\{",
]
LINES = [
    r"^[ \t]*ghost use [^;]*;\n",
    r"^[ \t]*prove!\((?:.|\n)*?\);\n",
    r"^[ \t]*#!?\[(tactic|error).*\n",
    r"^use (thiserror::Error|std::marker::Model);\n",
]
CHANGES = [
    (r"use std::alloc::", "use rattle_std::"),
    (r"vec!\[in alloc; (.*?); (.*?)\]\?", r"rattle_std::filled(\1, \2)?"),
    (r"vec!\[in alloc; (.*?)\]\?", r"rattle_std::listed(vec![\1])?"),
    (r"format!\(in alloc; (.*)\)$", r"rattle_std::text(format!(\1))"),
    (r"\.collect\(alloc\)", ".collect_in(alloc)"),
    (r": Drop\b", ""),
    (r"solver\.run\(&program, MOST_PIVOTS\)", r"rattle_std::timed(|| solver.run(&program, MOST_PIVOTS))"),
]


def closing_brace(text, start):
    depth = 0
    for place in range(start, len(text)):
        depth += {"{": 1, "}": -1}.get(text[place], 0)
        if depth == 0:
            return place + 1
    raise ValueError("a brace is not closed")


def without_blocks(text, pattern):
    while found := re.search(pattern, text, flags=re.M):
        end = closing_brace(text, found.end() - 1)
        end += text[end : end + 1] in (";", ",")
        text = text[: found.start()] + text[end:].lstrip("\n")
    return text


def derived(found):
    names = [name.strip() for name in found.group(1).split(",")]
    kept = [name for name in names if name not in ("Drop", "Error")]
    return f"#[derive({', '.join(kept)})]" if kept else ""


def stripped(text):
    """A source without what Rust does not know."""
    for pattern in LINES[:1]:
        text = re.sub(pattern, "", text, flags=re.M)
    for pattern in BLOCKS:
        text = without_blocks(text, pattern)
    for pattern in LINES[1:]:
        text = re.sub(pattern, "", text, flags=re.M)
    for pattern, new in CHANGES:
        text = re.sub(pattern, new, text, flags=re.M)
    text = re.sub(r"#\[derive\(([^)]*)\)\]", derived, text)
    lines = text.split("\n")
    first = next(i for i, line in enumerate(lines) if line.strip() and not line.startswith("//!"))
    lines.insert(first, "#[allow(unused_imports)] use rattle_std::{Gather, String, Vec};")
    return "\n".join(lines)


def write(path, text):
    path.parent.mkdir(parents=True, exist_ok=True)
    if not path.exists() or path.read_text() != text:
        path.write_text(text)


def package(name, libraries):
    wanted = "".join(f'{library} = {{ path = "../{library}" }}\n' for library in libraries)
    return f'[package]\nname = "{name}"\nversion = "0.1.0"\nedition = "2021"\n[dependencies]\n{wanted}'


def main():
    if len(sys.argv) != 2:
        sys.exit(__doc__)
    folder = pathlib.Path(sys.argv[1])
    members = ", ".join(f'"{name}"' for name in [*CRATES, "rattle_std", *DRIVERS])
    write(folder / "Cargo.toml", f'[workspace]\nresolver = "2"\nmembers = [{members}]\n[profile.release]\ndebug = 1\n')
    listed = dict(line.split(":") for line in (TOP / "crates.txt").read_text().splitlines() if ":" in line)
    for name in CRATES:
        libraries = [library for library in listed[name].split() if library in CRATES]
        write(folder / name / "Cargo.toml", package(name, ["rattle_std", *libraries]))
        for old in (folder / name / "src").glob("*.rs"):
            if not (TOP / "crates" / name / "src" / f"{old.stem}.rt").exists():
                old.unlink()
        for source in (TOP / "crates" / name / "src").glob("*.rt"):
            write(folder / name / "src" / f"{source.stem}.rs", stripped(source.read_text()))
    write(folder / "rattle_std" / "Cargo.toml", package("rattle_std", []))
    write(folder / "rattle_std" / "src" / "lib.rs", (HERE / "std.rs").read_text())
    for name, (source, libraries) in DRIVERS.items():
        write(folder / name / "Cargo.toml", package(name, ["rattle_std", *libraries]))
        write(folder / name / "src" / "main.rs", source.read_text())


if __name__ == "__main__":
    main()
