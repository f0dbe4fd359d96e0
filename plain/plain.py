#!/usr/bin/env python3
"""Writes the plain edition: the sources of this repository without their contracts, as a Cargo workspace for rustc.

    plain.py [--repo TOP] [--into FOLDER] [--check]

Each package of PACKAGES takes the crates that its heads stand on, by `crates.txt`; a crate becomes a module. `contracts.py`
takes contracts out, and `rules.py` changes what Rust has otherwise; `parts` holds what is written by hand. `--check` writes
nothing, and ends with 1 where the folder isn't what would be written. Python 3.9, standard library alone; rustfmt lays the
sources out, where it is there.
"""

import argparse
import hashlib
import pathlib
import re
import shutil
import subprocess
import sys
import tempfile

sys.dont_write_bytecode = True
import rules
from contracts import Refused, Stripper, is_empty, words_of
from rules import HOST


class Package:
    """A package: the crates that its heads stand on, but for those of the packages before it."""

    def __init__(self, name, heads, exported=(), no_std=False):
        self.name = name
        self.heads = heads
        # Crates whose public names are names of the package.
        self.exported = exported
        self.no_std = no_std
        self.crates = []


ENGINE = "liverymenhir"
PACKAGES = [
    Package(ENGINE, ["volume", "wear_scrub"], exported=["volume", "nor_core"], no_std=True),
    Package("spiffs", ["spiffs"]),
    Package("script_rows", ["script_rows"]),
    Package("plain_explain", ["plain_explain"]),
    Package("plain_tests", ["host_tests", "firmware_example"]),
]

# Crates that reach the files and streams of a host: they are built for Unix alone.
HOST_CRATES = {"front_edge", "host_edge", "host_tree"}

# What the manifests say, and the files that say it in full; the engine's crate has them too, since it is packed alone.
LICENCE = "MIT OR Apache-2.0"
LICENCES = ("LICENSE-MIT", "LICENSE-APACHE")

# Crates of a registry.
REGISTRY = {
    "arrayvec": 'version = "0.7", default-features = false',
    "byteorder": 'version = "1.4", default-features = false',
    "itoa": 'version = "1"',
    "memchr": 'version = "2", default-features = false',
}


class Crate:
    """A crate without its contracts: the text of each module by its name."""

    def __init__(self, top, name):
        self.name = name
        self.files = {}
        for path in sorted((top / "crates" / name / "src").glob("*.rt")):
            try:
                self.files[path.stem] = plain(path.read_text(encoding="utf-8"))
            except Refused as why:
                raise Refused(f"{path}: {why}") from why
        self.root = "main" if "main" in self.files else "lib"

    def is_program(self):
        return self.root == "main"

    def modules(self):
        return set(self.files) - {self.root}

    def drop(self, idle):
        """Laws and empty traits go, and modules of which nothing is left. Answers whether anything is left."""
        self.files = {stem: rules.without(text, idle) for stem, text in self.files.items()}
        for stem in [stem for stem in self.modules() if is_empty(self.files[stem])]:
            del self.files[stem]
            line = rf"^(?:pub )?(?:mod {stem};|use {stem}::[^;]*;)\n"
            self.files[self.root] = re.sub(line, "", self.files[self.root], flags=re.M)
        return not is_empty(self.files[self.root])


def plain(text):
    """A source without contracts, and without what is there for them alone."""
    left = rules.models(rules.drops(Stripper(text).run()))
    return rules.starts(rules.still_used(text, left))


def crates_of(top):
    """What each crate of `crates.txt` stands on."""
    below = {}
    for line in (top / "crates.txt").read_text(encoding="utf-8").splitlines():
        name, _, rest = line.partition("#")[0].partition(":")
        if name.strip():
            below[name.strip()] = rest.split()
    return below


def standing_on(below, heads):
    found, left = set(), list(heads)
    while left:
        name = left.pop()
        if name in below and name not in found:
            found.add(name)
            left += below[name]
    return found


class Edition:
    """The workspace, as texts by path."""

    def __init__(self, top, parts):
        self.parts = parts
        self.files = {}
        self.home = {}
        self.gather(top)
        for package in PACKAGES:
            self.write_package(package)
        for path in sorted(parts.rglob("*")):
            if path.is_file() and path.suffix not in (".head", ".extra", ".more"):
                self.files[str(path.relative_to(parts))] = path.read_text(encoding="utf-8")
        for name in LICENCES:
            text = (parts.parent.parent / name).read_text(encoding="utf-8")
            self.files.update({name: text, f"liverymenhir/{name}": text})
        self.files["SOURCE"] = source_text(top)

    # The crates of each package, in the order of `crates.txt`.
    def gather(self, top):
        below = crates_of(top)
        crates = {name: Crate(top, name) for name in standing_on(below, below)}
        idle = {name for crate in crates.values() for text in crate.files.values() for name in rules.idle_names(text)}
        left = {name for name, crate in crates.items() if crate.drop(idle)}
        for package in PACKAGES:
            names = standing_on(below, package.heads) & left - set(self.home)
            package.crates = [crates[name] for name in below if name in names]
            self.home.update({name: package for name in names})
        homeless = sorted(left - set(self.home))
        if homeless:
            raise Refused(f"no package of PACKAGES has {', '.join(homeless)}")

    # How a module of a crate of a package names what begins with a word.
    def root_of(self, package, crate, stem, is_hosted, word):
        if word == "crate":
            return "crate" if crate.is_program() else f"crate::{crate.name}"
        if stem == crate.root and word in crate.modules():
            return f"self::{word}"
        if word == "std":
            return HOST if is_hosted else "core" if package.no_std else word
        home = self.home.get(word)
        if home is None:
            return word
        return f"crate::{word}" if home is package and not crate.is_program() else f"{home.name}::{word}"

    def write_package(self, package):
        uses = set()
        for crate in package.crates:
            uses |= self.write_crate(package, crate)
        modules = [crate.name for crate in package.crates if not crate.is_program()]
        if modules:
            self.files[f"{package.name}/src/lib.rs"] = self.lib_text(package, modules)
        self.files[f"{package.name}/Cargo.toml"] = self.manifest(package, uses - {package.name})
        if package.no_std:
            self.files[f"{package.name}/README.md"] = read_me(package.name, self.part(package, "lib.head"))

    # Writes the modules of a crate, and answers which packages they use.
    def write_crate(self, package, crate):
        known = {HOST, *REGISTRY, *(package.name for package in PACKAGES)}
        uses = set()
        for stem, text in crate.files.items():
            is_hosted = rules.uses_host(text)
            text = rules.with_roots(text, lambda word: self.root_of(package, crate, stem, is_hosted, word))
            text = rules.displays(rules.errors(text, "crate" if package.no_std else ENGINE))
            if package.no_std:
                text = rules.in_words(rules.closed(rules.constant(text, crate.name, stem), crate.name, stem))
            if is_hosted:
                text = rules.hosted(text)
            if stem == "main":
                text = rules.with_attribute(text, "#![no_main]")
            uses |= known & set(words_of(text))
            folder = "" if crate.is_program() else f"{crate.name}/"
            self.files[f"{package.name}/src/{folder}{'mod' if stem == 'lib' else stem}.rs"] = text
        return uses

    def part(self, package, name):
        path = self.parts / package.name / name
        return path.read_text(encoding="utf-8") if path.exists() else ""

    def lib_text(self, package, modules):
        text = self.part(package, "lib.head")
        if package.no_std:
            text += '#![no_std]\n#![forbid(unsafe_code)]\n\n#[cfg(feature = "std")]\nextern crate std;\n\n'
            text += '#[cfg(target_pointer_width = "16")]\ncompile_error!("16 bits of address are too few");\n\n'
        text += "".join(f"#[doc(inline)]\npub use self::{name}::*;\n" for name in package.exported)
        hidden = [name for name in modules if package.no_std and name not in package.exported]
        marks = {**{name: "#[doc(hidden)]\n" for name in hidden}, **{name: "#[cfg(unix)]\n" for name in HOST_CRATES}}
        text += "\n" + "".join(marks.get(name, "") + f"pub mod {name};\n" for name in modules)
        return text + self.part(package, "lib.more") + self.part(package, "lib.extra")

    def manifest(self, package, uses):
        text = f'[package]\nname = "{package.name}"\nversion = "0.1.0"\nedition = "2024"\nrust-version = "1.87"\nlicense = "{LICENCE}"\n'
        text += self.part(package, "Cargo.extra") or "publish = false\n"
        text += "\n[dependencies]\n" + "".join(self.dependency(package, name) for name in sorted(uses))
        if package.no_std:
            text += "\n[features]\nstd = []\n"
        if any(crate.is_program() for crate in package.crates):
            # (a program starts by `rattle_host::main!`, which a test of it can't)
            text += f'\n[[bin]]\nname = "{package.name}"\npath = "src/main.rs"\ntest = false\n'
        return text + "\n[lints]\nworkspace = true\n"

    def dependency(self, package, name):
        is_engine = any(other.name == name and other.no_std for other in PACKAGES)
        said = REGISTRY.get(name, f'path = "../{name}"') + (', features = ["std"]' if is_engine else "")
        return f"{name} = {{ {said} }}\n"


def read_me(name, docs):
    """What a registry shows of a package: its docs."""
    lines = [line[4:] if line.startswith("//! ") else "" for line in docs.splitlines()]
    return f"# {name}\n\n" + "\n".join(lines).replace("```\nuse ", "```rust\nuse ", 1).strip() + "\n"


def source_text(top):
    """Of which sources the edition was made."""
    all_of = hashlib.sha256()
    for path in [top / "crates.txt", *sorted(top.glob("crates/*/src/*.rt"))]:
        all_of.update(f"{path.relative_to(top)}\n".encode() + path.read_bytes())
    return f"crates.txt and crates/*/src/*.rt, one after the other with their names, SHA-256:\n{all_of.hexdigest()}\n"


def put(files, top):
    """Writes the files that don't stand there yet as they are: of the others a build need not be made anew."""
    for name, text in files.items():
        path = top / name
        if not path.exists() or path.read_text(encoding="utf-8") != text:
            path.parent.mkdir(parents=True, exist_ok=True)
            path.write_text(text, encoding="utf-8")


def laid_out(files):
    """The files, with the Rust sources laid out by rustfmt, which goes from the roots to their modules."""
    if not shutil.which("rustfmt"):
        return files
    with tempfile.TemporaryDirectory() as folder:
        top = pathlib.Path(folder)
        put(files, top)
        roots = [str(top / name) for name in files if name.endswith(("src/lib.rs", "src/main.rs"))]
        done = subprocess.run(["rustfmt", "--edition", "2024", *roots], capture_output=True, text=True)
        if done.returncode != 0:
            raise Refused(done.stderr)
        return {name: (top / name).read_text(encoding="utf-8") for name in files}


def surplus(files, top):
    """Sources that would not be written."""
    return [str(path.relative_to(top)) for path in top.glob("*/src/**/*.rs") if str(path.relative_to(top)) not in files]


def differing(files, top):
    """Files that aren't as they would be written, and sources that would not be."""
    odd = [name for name, text in files.items() if not (top / name).exists() or (top / name).read_text(encoding="utf-8") != text]
    return odd + surplus(files, top)


def main():
    here = pathlib.Path(__file__).resolve().parent
    words = argparse.ArgumentParser(description="Writes the plain edition.")
    words.add_argument("--repo", type=pathlib.Path, default=here.parent)
    words.add_argument("--into", type=pathlib.Path, default=here / "out")
    words.add_argument("--check", action="store_true")
    asked = words.parse_args()
    try:
        files = laid_out(Edition(asked.repo, here / "parts").files)
    except Refused as why:
        print(f"plain.py: {why}", file=sys.stderr)
        return 1
    if asked.check:
        odd = differing(files, asked.into)
        for name in odd:
            print(f"{name} isn't what the sources give", file=sys.stderr)
        return 1 if odd else 0
    for name in surplus(files, asked.into):
        (asked.into / name).unlink()
    put(files, asked.into)
    print(f"{len(files)} files, {sum(text.count(chr(10)) for name, text in files.items() if name.endswith('.rs'))} lines of Rust")
    return 0


if __name__ == "__main__":
    sys.exit(main())
