"""Runs the commands of the pages as a reader would, for docs/check. Python 3.9, standard library alone."""

import os
import pathlib
import re
import shutil
import subprocess
import sys
import tempfile

# The pages whose every block of commands is run; of the others those that show what they print.
RUN_WHOLE = ("README.md", "docs/COMMANDS.md", "docs/SCRIPTS.md", "docs/FIRMWARE.md")

# Blocks that build: for a reader of a fresh clone alone.
BUILDS = r"plain/build|export PATH="

# What a reader has: a shell and the usual tools, Python, and Rust with what it links by. There is no Rattle kit, and nothing else.
TOOLS = """awk bash basename cat chmod cksum cmp comm cp cut date dd diff dirname echo env expr false find fold git grep gzip head id install ln ls
mkdir mktemp mv nl nproc od paste printf pwd readlink realpath rm rmdir sed seq sh sha256sum sleep sort stat tail tar tee test timeout touch tr true
truncate uname uniq wc xargs xxd cargo rustc ar as cc gcc ld""".split()

# What is left of the environment.
KEPT = ("HOME", "LANG", "USER", "RUSTUP_HOME", "CARGO_HOME", "RUSTUP_AUTO_INSTALL", "RUSTUP_TOOLCHAIN")

# The tool that reads and writes the flash of a board; here the flash is a file.
ESPTOOL = """\
#!/bin/sh
flash=${0%/*}/../flash
case $1 in
  read_flash) dd if="$flash" of="$4" bs=4096 skip=$(($2 / 4096)) count=$(($3 / 4096)) 2>/dev/null ;;
  write_flash) dd if="$3" of="$flash" bs=4096 seek=$(($2 / 4096)) conv=notrunc 2>/dev/null ;;
  *) exit 2 ;;
esac
"""

# What a reader brings along, if a block doesn't make it: a folder of files, a file, and the dump of a flash with a volume in it.
FLASH, OFFSET, SIZE = 4 << 20, 0x290000, 0x160000
GIVEN = {
    "data": (r"\bdata\b", r"mkdir (-p )?(\S+ )?data\b"),
    "config.json": (r"\bconfig\.json\b", r">config\.json"),
    "dump.bin": (r"\bdump\.bin\b", r"read_flash .* dump\.bin"),
}


class Reader:
    """Someone who tries the pages: `top` is the checkout, fresh or not, and `path` where `spiffs` lies."""

    def __init__(self, top, is_fresh):
        self.room = tempfile.TemporaryDirectory(prefix="docs-check-")
        self.is_fresh = is_fresh
        self.name = "from a fresh clone: " if is_fresh else ""
        # (what a block may take)
        self.seconds = 3600 if is_fresh else 60
        self.top = pathlib.Path(self.room.name, "clone") if is_fresh else top
        self.path = self.top if is_fresh else pathlib.Path(self.room.name, "program")
        self.tools = pathlib.Path(self.room.name, "bin")
        self.tools.mkdir()
        for tool in TOOLS:
            if found := shutil.which(tool):
                os.symlink(found, self.tools / tool)
        os.symlink(sys.executable, self.tools / "python3")
        (self.tools / "esptool.py").write_text(ESPTOOL, encoding="utf-8")
        (self.tools / "esptool.py").chmod(0o755)

    def run(self, script, folder):
        """What commands print and how they end."""
        env = {key: value for key, value in os.environ.items() if key in KEPT}
        env["PATH"] = f"{self.path}:{self.tools}"
        words = ["bash", "-c", script]
        done = subprocess.run(words, cwd=folder, env=env, stdin=subprocess.DEVNULL, capture_output=True, text=True, timeout=self.seconds, check=False)
        return done.stdout, done.returncode, done.stderr

    def begin(self):
        """Makes what a reader brings along."""
        self.brought = brought = pathlib.Path(self.room.name, "brought")
        (brought / "data" / "css").mkdir(parents=True)
        (brought / "data" / "index.html").write_text("<p>Hello\n", encoding="utf-8")
        (brought / "data" / "css" / "main.css").write_text("p { color: red }\n", encoding="utf-8")
        (brought / "config.json").write_text('{"name": "board"}\n', encoding="utf-8")
        _, status, said = self.run(f"spiffs pack data volume --size {SIZE}", brought)
        if status != 0:
            raise RuntimeError(f"spiffs pack ends with {status}: {said}")
        flash = bytearray(b"\xff" * FLASH)
        flash[: 1 << 16] = bytes(byte % 251 for byte in range(1 << 16))
        flash[OFFSET : OFFSET + SIZE] = (brought / "volume").read_bytes()
        (brought / "dump.bin").write_bytes(flash)

    def put(self, block, folder):
        """Puts into a folder what a block takes and doesn't make."""
        for name, (taken, made) in GIVEN.items():
            if re.search(taken, block) and not re.search(made, block):
                source = self.brought / name
                (shutil.copytree if source.is_dir() else shutil.copy)(source, folder / name)
        shutil.copy(self.brought / "dump.bin", pathlib.Path(self.room.name, "flash"))

    def does(self, block, is_whole):
        """Runs a block in a folder of its own, with the checkout's files beside it. With `is_whole` the first command that fails ends it."""
        with tempfile.TemporaryDirectory(prefix="docs-check-") as room:
            folder, work = pathlib.Path(room, "here"), pathlib.Path(room, "tmp")
            folder.mkdir()
            work.mkdir()
            for it in self.top.iterdir():
                if it.name != ".git":
                    os.symlink(it, folder / it.name)
            self.put(block, folder)
            script = re.sub(r"(?<![\w.])/tmp\b", str(work), block)
            said, status, why = self.run(f"set -eo pipefail\n{script}" if is_whole else script, folder)
            return said.replace(str(work), "/tmp"), status, why


def built_reader(top, program):
    """A reader with a built program."""
    reader = Reader(top, False)
    reader.path.mkdir()
    os.symlink(program, reader.path / "spiffs")
    return reader


def fresh_reader(top, files):
    """A reader with a copy of the checkout where nothing was built, who gets the program by the launcher."""
    reader = Reader(top, True)
    for name in files:
        path = reader.top / name
        path.parent.mkdir(parents=True, exist_ok=True)
        shutil.copy2(top / name, path, follow_symlinks=False)
    return reader


def check(page, name, reader, faults):
    """Checks the blocks of commands of a page. A block with a text right behind it prints that; another ends with 0."""
    following = {number: (kind, text) for number, kind, text, _ in page.blocks}
    for number, kind, block, end in page.blocks:
        if kind != "sh":
            continue
        shown = [following[it][1] for it in (end + 1, end + 2) if it in following and following[it][0] == "text"]
        if not shown and name not in RUN_WHOLE or re.search(BUILDS, block) and not reader.is_fresh:
            continue
        try:
            said, status, why = reader.does(block, not shown)
        except subprocess.TimeoutExpired:
            faults.see(False, page, number, f"{reader.name}the commands take more than {reader.seconds} seconds")
            continue
        if shown:
            faults.see(said == shown[0], page, number, f"{reader.name}the commands print {said!r}")
        else:
            faults.see(status == 0, page, number, f"{reader.name}the commands end with {status}: {why[-300:]!r}")
