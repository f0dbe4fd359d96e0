"""Archives whose bytes depend on nothing but what is in them and the second that is told. Python 3.9, standard library alone."""

import gzip
import io
import tarfile


def tar_of(files, second, prefix=""):
    """A tar file, compressed by gzip. `files` is a list of (path, bytes, is a program); folders are added."""
    plain = io.BytesIO()
    with tarfile.open(fileobj=plain, mode="w", format=tarfile.USTAR_FORMAT) as tar:
        paths = {prefix + path: (data, is_program) for path, data, is_program in files}
        for folder in sorted({path[: at + 1] for path in paths for at, byte in enumerate(path) if byte == "/" and path[:at] not in ("", ".")}):
            tar.addfile(member(folder.rstrip("/"), second, tarfile.DIRTYPE, 0o755, 0))
        for path in sorted(paths):
            data, is_program = paths[path]
            tar.addfile(member(path, second, tarfile.REGTYPE, 0o755 if is_program else 0o644, len(data)), io.BytesIO(data))
    return zipped(plain.getvalue(), second)


def member(path, second, kind, mode, size):
    it = tarfile.TarInfo(path)
    it.type, it.mode, it.size, it.mtime = kind, mode, size, second
    it.uid = it.gid = 0
    it.uname = it.gname = "root"
    return it


def zipped(data, second):
    out = io.BytesIO()
    with gzip.GzipFile(filename="", fileobj=out, mode="wb", compresslevel=9, mtime=second) as it:
        it.write(data)
    return out.getvalue()


def deb_of(control, files, second):
    """A package for Debian: `control` is its text, `files` as in `tar_of`, with paths from the root on."""
    parts = (
        ("debian-binary", b"2.0\n"),
        ("control.tar.gz", tar_of([("control", control.encode(), False)], second, "./")),
        ("data.tar.gz", tar_of(files, second, "./")),
    )
    out = b"!<arch>\n"
    for name, data in parts:
        out += f"{name:<16}{second:<12}{0:<6}{0:<6}{'100644':<8}{len(data):<10}`\n".encode() + data + b"\n" * (len(data) % 2)
    return out
