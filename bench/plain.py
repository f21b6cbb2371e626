#!/usr/bin/env python3
"""Translates the solver to plain Rust, where a change of it is built and measured in seconds.

    bench/plain.py FOLDER

It writes a Rust project in FOLDER: contracts and proofs are left out of the sources of `pg_watch`, `pg_sat`, `pg_sat_search` and what they
use, and `bench/plain.rs` stands for the library that they are written over. `cargo build --release` there, and then

    FOLDER/target/release/plain FORMULA [BUDGET] [find|keep]

solves a formula by the search that forgets, or by the one that keeps all. The conflicts are those of `pg_solve`; the seconds are near
to its own. Nothing is proved of the translation: it is for counters, profiles and trials.
"""

import re
import sys
from pathlib import Path

TOP = Path(__file__).resolve().parent.parent
# of a crate the modules that are taken: all where none is named
CRATES = {"pg_cnf": ("clause",), "pg_proof": ("step",), "pg_watch": (), "pg_sat": (), "pg_sat_search": ()}
MANIFEST = '[package]\nname = "plain"\nversion = "0.1.0"\nedition = "2021"\n\n[profile.release]\ndebug = 1\npanic = "abort"\n'
# lines that are left out, and what begins a clause that is, over as many lines as its brackets take
LEFT_OUT = re.compile(r"#!?\[(tactic|error)|//!|use (std::alloc|std::marker|sqlite_items|smallvec|thiserror)\b")
CLAUSE = re.compile(r"(pub )?ghost |(requires|ensures)( \w+)? \{")


def without_clauses(text):
    """A text without what is there for the prover alone."""
    text = re.sub(r"impl Model for \w+ \{.*?\n\}\n", "", text, flags=re.S)
    kept, depth = [], 0
    for line in text.split("\n"):
        words = line.strip()
        if depth > 0 or CLAUSE.match(words):
            depth += words.count("{") - words.count("}")
        elif not LEFT_OUT.match(words):
            kept.append(line)
    return "\n".join(kept)


def derived(match):
    """What plain Rust derives of a list of traits."""
    names = [name for name in re.split(r",\s*", match.group(1)) if name not in ("Drop", "Error", "Debug")]
    return f"#[derive({', '.join(names)})]" if names else ""


def translated(crate, text):
    """A module as a module of the one crate that is written."""
    text = without_clauses(text)
    text = re.sub(r"#\[derive\(([^)]*)\)\]", derived, text)
    text = re.sub(r"vec!\[in alloc; ([^;]*); ([^\]]*)\]", r"Vec::from_elem(alloc, \1, \2)", text)
    text = text.replace(".collect(alloc)", ".collect_in(alloc)")
    text = re.sub(r"\bcrate::", f"crate::{crate}::", text)
    return "use crate::library::*;\n" + re.sub(rf"(?<![:\w])({'|'.join(CRATES)})::", r"crate::\1::", text)


def write_crate(crate, modules, folder):
    """Writes the modules of a crate, and one that has them."""
    sources = TOP / "crates" / crate / "src"
    names = modules or sorted(path.stem for path in sources.glob("*.rt") if path.stem != "lib")
    folder.mkdir(parents=True, exist_ok=True)
    for name in names:
        (folder / f"{name}.rs").write_text(translated(crate, (sources / f"{name}.rt").read_text()))
    uses = re.findall(r"^pub use (\w+)(::[^;]*;)", (sources / "lib.rt").read_text(), flags=re.M)
    lines = [f"pub mod {name};" for name in names] + [f"pub use self::{name}{what}" for name, what in uses if name in names]
    (folder / "mod.rs").write_text("\n".join(lines) + "\n")


def main():
    if len(sys.argv) != 2:
        sys.exit("usage: bench/plain.py FOLDER")
    folder = Path(sys.argv[1])
    for crate, modules in CRATES.items():
        write_crate(crate, modules, folder / "src" / crate)
    (folder / "src" / "main.rs").write_text((TOP / "bench" / "plain.rs").read_text())
    (folder / "Cargo.toml").write_text(MANIFEST)


main()
