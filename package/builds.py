"""Builds what a release has of the plain edition: the program, the library for C, the engine's crate and the page for a browser. What can't be
built on this machine is left out, and standard error says so. Python 3.9, standard library alone."""

import os
import pathlib
import re
import shutil
import subprocess
import sys

TOP = pathlib.Path(__file__).resolve().parent.parent
PLAIN = TOP / "plain"
OUT = PLAIN / "out"

# The machines that the program is built for, and for each the targets of rustc, of which the first that can be built is taken.
MACHINES = {
    "x86_64-linux": ("x86_64-unknown-linux-musl", "x86_64-unknown-linux-gnu"),
    "aarch64-linux": ("aarch64-unknown-linux-gnu",),
}
# The targets of the libraries for C; the first is that of this machine.
LIBRARIES = ("x86_64-unknown-linux-gnu", "aarch64-unknown-linux-gnu", "thumbv6m-none-eabi", "thumbv7m-none-eabi")

# Builds a package for a target: prints the compiler and where the file is. Ends with 3 where the target, or a linker for it, isn't there.
BUILD = """
. "$1/common.sh"
%s || exit 3
cd "$1/out/%s" && "${for_target[@]}" %s >&2 && "$rustc" --version && echo "$made/%s"
"""
FOR_PROGRAM = BUILD % ('set_program_target "$2" "$1/out"', ".", "-p spiffs", "spiffs")
FOR_LIBRARY = BUILD % ('set_target "$2" core "$1/out"', "spiffs_c", "", "libspiffs.a")


def tell(text):
    print(f"release: {text}", file=sys.stderr, flush=True)


def by_shell(script, *words, **more):
    """What a script built: the compiler, and the bytes; None where it ends with 3. If a target is there and the build fails, nothing is released."""
    done = subprocess.run(["bash", "-c", script, "release", PLAIN, *words], stdout=subprocess.PIPE, stderr=subprocess.PIPE, text=True, check=False, **more)
    if done.returncode == 3:
        return None
    if done.returncode != 0:
        sys.exit(f"release: for {words[0]} it can't be built:\n{done.stderr[-2000:]}")
    compiler, path = done.stdout.strip().split("\n")[-2:]
    return compiler, pathlib.Path(path).read_bytes()


def prepare():
    """Writes the edition, gets its crates and builds it."""
    if not shutil.which("cargo"):
        sys.exit("release: cargo isn't there, which builds the plain edition")
    if subprocess.run([PLAIN / "build"], check=False).returncode != 0:
        sys.exit("release: the plain edition can't be built")


def libc_of(program):
    """The least version of glibc that a program asks for; None where it is linked with none, or statically."""
    found = {tuple(map(int, it.split(b"."))) for it in re.findall(rb"GLIBC_(\d+(?:\.\d+)+)", program)}
    return ".".join(map(str, max(found))) if found else None


def linked(program, target):
    """How a program is linked, as a sentence."""
    if target.endswith("-musl"):
        return "It is linked statically, with musl: it runs on any Linux of this machine."
    return f"It is linked with the C library of the system: glibc {libc_of(program) or '2.17'} or newer."


def programs(commit):
    """The programs that can be built: machine, target, compiler, bytes."""
    built = []
    for machine, targets in MACHINES.items():
        for target in targets:
            made = by_shell(FOR_PROGRAM, target, env=dict(os.environ, SPIFFS_COMMIT=commit))
            if made:
                built.append((machine, target, *made))
                tell(f"the plain program for {machine}: {linked(made[1], target)}")
                break
        else:
            tell(f"the plain program for {machine} is left out: {' or '.join(targets)} can't be built here")
    return built


def libraries():
    """The libraries for C, as files of an archive, and for each target its compiler."""
    files, compilers = [], {}
    for target in LIBRARIES:
        made = by_shell(FOR_LIBRARY, target)
        if made is None:
            tell(f"libspiffs.a for {target} is left out: neither rustup's target nor Debian's rust-web-src is there")
            continue
        files.append((f"lib/{target}/libspiffs.a", made[1], False))
        compilers[target] = made[0]
    return files, compilers


def crate():
    """The engine's crate, as cargo packs it: its name and its bytes."""
    words = ["cargo", "package", "--no-verify", "--allow-dirty", "--offline", "--quiet", "--target-dir", str(OUT / "target")]
    subprocess.run(words, cwd=OUT / "liverymenhir", check=True)
    made = sorted((OUT / "target" / "package").glob("liverymenhir-*.crate"))[-1]
    return made.name, made.read_bytes()


def c_sources(name):
    """The sources of the library for C, over the engine's crate unpacked beside them."""
    folder, crate_folder = OUT / "spiffs_c", name.removesuffix(".crate")
    paths = [path for part in ("include", "src", "demo") for path in sorted((folder / part).rglob("*")) if path.is_file()]
    files = [(f"c/{path.relative_to(folder)}", path.read_bytes(), False) for path in paths]
    manifest = (folder / "Cargo.toml").read_text(encoding="utf-8").replace('"../liverymenhir"', f'"../{crate_folder}"')
    return [*files, ("c/Cargo.toml", manifest.encode(), False), ("c/Cargo.lock", (folder / "Cargo.lock").read_bytes(), False)]


def page():
    """The page for a browser, as a file of an archive; none where it can't be built here."""
    status = subprocess.run([PLAIN / "web" / "build"], stdout=subprocess.DEVNULL, check=False).returncode
    if status == 3:
        tell("spiffs.html, the page for a browser, is left out")
        return []
    if status != 0:
        sys.exit("release: the page for a browser can't be built")
    return [("spiffs.html", (OUT / "web" / "spiffs.html").read_bytes(), False)]
