#!/usr/bin/env python3
"""Puts the page together: the markup, the style and the scripts of plain/parts/web, and the module that cargo built of its sources.

    assemble.py MODULE INTO

The page is one file without a network. Its policy lets no script run but its own, whose SHA-256 it tells. Standard library alone.
"""

import base64
import hashlib
import pathlib
import re
import sys

PARTS = pathlib.Path(__file__).resolve().parent.parent / "parts" / "web"
POLICY = "default-src 'none'; base-uri 'none'; form-action 'none'; script-src {} 'wasm-unsafe-eval'; style-src {}; worker-src blob:"


def parts_now():
    """The parts of the page by their names."""
    return {name: (PARTS / name).read_text(encoding="utf-8") for name in ("page.html", "page.css", "page.js", "worker.js")}


def told(text):
    """How a policy tells a script or a style."""
    return f"'sha256-{base64.b64encode(hashlib.sha256(text.encode()).digest()).decode()}'"


def page_of(module, parts):
    script, style = parts["page.js"], parts["page.css"]
    put = {"STYLE": style, "SCRIPT": script, "WORKER": parts["worker.js"], "WASM": base64.b64encode(module).decode()}
    put["POLICY"] = POLICY.format(told(script), told(style))
    return re.sub(r"@([A-Z]+)@", lambda it: put[it[1]], parts["page.html"])


def main():
    module, into = map(pathlib.Path, sys.argv[1:])
    page = page_of(module.read_bytes(), parts_now()).encode()
    into.write_bytes(page)
    print(f"{into}, {len(page)} bytes")


if __name__ == "__main__":
    main()
