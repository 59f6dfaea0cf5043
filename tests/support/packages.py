"""Programs that tests need beyond the kit: Debian's packages, installed where they are missing."""

import fcntl
import os
import shutil
import subprocess
import tempfile


def is_there(program, package):
    """Whether a program is there, once its package has been installed where it was not. Tests that run side by side do so in turn, since
    `apt-get` refuses to run twice at a time."""
    with open(f"{tempfile.gettempdir()}/fonnavil-packages.lock", "w", encoding="utf-8") as lock:
        fcntl.flock(lock, fcntl.LOCK_EX)
        for words in (["update"], ["install", "-y", "--no-install-recommends", package]):
            if not shutil.which(program):
                subprocess.run(["apt-get", *words], capture_output=True, check=False, env={**os.environ, "DEBIAN_FRONTEND": "noninteractive"})
    return shutil.which(program) is not None
