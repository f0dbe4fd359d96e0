"""What the files of a release say of their licence, and of what is linked into the programs. Python 3.9, standard library alone."""

import pathlib

TOP = pathlib.Path(__file__).resolve().parent.parent
LICENCE = "MIT OR Apache-2.0"
AUTHORS = "The Liverymenhir authors"
LICENCES = ("LICENSE-MIT", "LICENSE-APACHE")

# Crates whose code the programs hold: name, copyright, licence. The proved program has the Rattle kit's ports of them.
CRATES = (
    ("arrayvec", 'Ulrik Sverdrup "bluss", 2015-2023', "MIT or Apache-2.0"),
    ("byteorder", "Andrew Gallant, 2015", "MIT or Unlicense"),
    ("itoa", "David Tolnay", "MIT or Apache-2.0"),
    ("memchr", "Andrew Gallant, 2015", "MIT or Unlicense"),
    ("thiserror", "David Tolnay", "MIT or Apache-2.0"),
)

PROVED = """\
The program holds the library of the Rattle kit, and the kit's ports of the crates below. Of a port, the files LICENSE* of its folder in
the kit (`rattle/NAME/`) give the terms. For its own library (`rattle/std`, `rattle/core`) and compiler the kit has no such file: ask whoever
gave you the kit before you hand the proved program on. It is linked with the C library of the system."""
PLAIN = "The programs hold Rust's standard library (MIT or Apache-2.0) and the crates below, as they are published."


def in_field(text):
    """A text as the rest of a field of Debian's copyright file: each line indented, an empty one as a dot."""
    return "\n".join(f" {line}" if line.strip() else " ." for line in text.strip("\n").split("\n"))


def copyright_file(is_proved):
    """The file `copyright` of a package, in Debian's format."""
    mit = (TOP / "LICENSE-MIT").read_text(encoding="utf-8").partition("\n\n")[2].partition("\n\n")[2]
    # (what thiserror derives is written by the script of the plain edition)
    held = [it for it in CRATES if is_proved or it[0] != "thiserror"]
    crates = "".join(f"{name}: {licence}, copyright {holder}\n" for name, holder, licence in held)
    comment = in_field(f"{PROVED if is_proved else PLAIN}\n\n{crates}")
    parts = [
        f"Format: https://www.debian.org/doc/packaging-manuals/copyright-format/1.0/\nUpstream-Name: Liverymenhir\nComment:\n{comment}",
        f"Files: *\nCopyright: 2026 {AUTHORS}\nLicense: MIT or Apache-2.0",
        f"License: MIT\n{in_field(mit)}",
        "License: Apache-2.0\n On Debian the text is /usr/share/common-licenses/Apache-2.0; it is LICENSE-APACHE in the other files of a release.",
    ]
    return "\n\n".join(parts) + "\n"


def licence_files():
    """The two texts, by their names."""
    return [(name, (TOP / name).read_bytes()) for name in LICENCES]
