"""Programs that the tries use, from Debian's packages."""
import os
import shutil
import subprocess

os.environ["PATH"] += ":/usr/sbin:/sbin"


def install(program, *packages):
    """Installs these packages by apt-get, as root, if there is no such program: whether there is one then."""
    for words in (["install", "-y", "--no-install-recommends", *packages], ["update"], ["install", "-y", "--no-install-recommends", *packages]):
        if shutil.which(program) is not None or os.geteuid() != 0 or shutil.which("apt-get") is None:
            break
        print(f"note: {program} is missing: apt-get {' '.join(words)}", flush=True)
        how = {"stdin": subprocess.DEVNULL, "stdout": subprocess.DEVNULL, "env": {**os.environ, "DEBIAN_FRONTEND": "noninteractive"}, "timeout": 300}
        subprocess.run(["apt-get", "-q", *words], **how)
    return shutil.which(program) is not None
