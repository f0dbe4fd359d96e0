#!/usr/bin/env python3
"""Runs a command beside a registry that is served on this machine: crates.io, where that isn't reached, for tests.

    registry.py CRATES HOME COMMAND..

The registry has the crates of a folder like the one that Debian's packages fill, by cargo's sparse protocol. The command gets HOME as its
CARGO_HOME, whose configuration puts the registry in the place of crates.io. Ends as the command does. Python 3.9, standard library alone.
"""

import functools
import hashlib
import http.server
import json
import os
import pathlib
import subprocess
import sys
import tarfile
import tempfile
import threading

CONFIG = '[source.crates-io]\nreplace-with = "made"\n\n[source.made]\nregistry = "sparse+{url}/index/"\n'


class Quiet(http.server.SimpleHTTPRequestHandler):
    """Serves files, and says nothing of it."""

    def log_message(self, format, *args):
        pass


def index_path(name):
    """Where the index has a crate's lines."""
    folder = {1: "1", 2: "2", 3: f"3/{name[:1]}"}.get(len(name), f"{name[:2]}/{name[2:4]}")
    return f"{folder}/{name}"


def dependency(told):
    """A dependency as the index tells of it."""
    line = {key: told[key] for key in ("req", "features", "optional", "target")}
    line.update(name=told["rename"] or told["name"], default_features=told["uses_default_features"], kind=told["kind"] or "normal")
    if told["rename"]:
        line["package"] = told["name"]
    return line


def publish(crate, top):
    """Packs a crate, and adds its line to the index."""
    said = subprocess.run(["cargo", "read-manifest", "--manifest-path", crate / "Cargo.toml"], check=True, capture_output=True, text=True)
    told = json.loads(said.stdout)
    name, version = told["name"], told["version"]
    packed = top / f"{name}-{version}.crate"
    with tarfile.open(packed, "w:gz") as file:
        file.add(crate, f"{name}-{version}", filter=lambda entry: None if entry.name.endswith(".cargo-checksum.json") else entry)
    line = {"name": name, "vers": version, "deps": [dependency(it) for it in told["dependencies"]], "features": told["features"]}
    line.update(cksum=hashlib.sha256(packed.read_bytes()).hexdigest(), yanked=False)
    path = top / "index" / index_path(name)
    path.parent.mkdir(parents=True, exist_ok=True)
    with path.open("a", encoding="utf-8") as file:
        file.write(f"{json.dumps(line)}\n")


def main():
    if len(sys.argv) < 4:
        sys.exit(__doc__)
    crates, home = map(pathlib.Path, sys.argv[1:3])
    with tempfile.TemporaryDirectory() as folder:
        top = pathlib.Path(folder)
        server = http.server.ThreadingHTTPServer(("127.0.0.1", 0), functools.partial(Quiet, directory=folder))
        url = f"http://127.0.0.1:{server.server_port}"
        for crate in sorted(crates.iterdir()):
            publish(crate.resolve(), top)
        (top / "index" / "config.json").write_text(json.dumps({"dl": f"{url}/{{crate}}-{{version}}.crate"}), encoding="utf-8")
        home.mkdir(parents=True, exist_ok=True)
        (home / "config.toml").write_text(CONFIG.format(url=url), encoding="utf-8")
        threading.Thread(target=server.serve_forever, daemon=True).start()
        done = subprocess.run(sys.argv[3:], env=dict(os.environ, CARGO_HOME=str(home)), check=False)
        server.shutdown()
    return done.returncode


if __name__ == "__main__":
    sys.exit(main())
