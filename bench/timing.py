"""How long a command of the program takes, by the processor."""

import math
import os
import subprocess
import sys
import tempfile


def seconds_of(program, form, numbers, image, script=b"", wanted=None, runs=5):
    """The least processor time, user and system, of some runs of a command on a chip with this image. Ends the whole script where
    a run fails, or doesn't say what is wanted."""
    least = math.inf
    with tempfile.TemporaryDirectory() as folder:
        chip, lines, said = (os.path.join(folder, name) for name in ("chip", "script", "said"))
        with open(lines, "wb") as file:
            file.write(script)
        for _ in range(runs):
            with open(chip, "wb") as file:
                file.write(image)
            words = [program, form, *map(str, numbers), chip]
            with open(lines, "rb") as source, open(said, "wb") as out:
                child = subprocess.Popen(words, stdin=source, stdout=out)
                _, status, usage = os.wait4(child.pid, 0)
                child.returncode = os.waitstatus_to_exitcode(status)
            if child.returncode != 0:
                sys.exit(f"{form} of {numbers[2]} blocks ended with {child.returncode}")
            least = min(least, usage.ru_utime + usage.ru_stime)
        with open(said, "rb") as file:
            if wanted is not None and file.read() != wanted:
                sys.exit(f"{form} of {numbers[2]} blocks: a reply is wrong")
    return least
