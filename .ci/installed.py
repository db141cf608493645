"""The packages of Debian that parts of the gate need, and their installation by apt-get.

usage: installed.py      (installs what is missing for all parts; .ci/run does it before them)
"""
import fcntl
import os
import pathlib
import shutil
import subprocess
import sys

# Programs of the system stand there too.
PATH = f"{os.environ.get('PATH', os.defpath)}:/usr/sbin:/sbin"
# Debian's package installs selenium for the system's Python.
SELENIUM = "/usr/lib/python3/dist-packages"
# What a part needs: each program's package.
PROXY = {"nginx": "nginx", "openssl": "openssl", "logrotate": "logrotate", "nft": "nftables", "ip": "iproute2"}
PAGE = PROXY | {"chromium": "chromium", "chromedriver": "chromium-driver", "pdftotext": "poppler-utils",
                "Xvfb": "xvfb", "xdotool": "xdotool"}
PACKAGE = PROXY | {"sqlite3": "sqlite3", "curl": "curl", "restic": "restic", "dpkg-repack": "dpkg-repack",
                   "lintian": "lintian", "sendmail": "msmtp-mta", "sshd": "openssh-server"}


def missing(programs):
    """The packages of what isn't on the machine."""
    packages = [package for name, package in programs.items() if not shutil.which(name, path=PATH)]
    if "chromium" in programs and not pathlib.Path(SELENIUM, "selenium").exists():
        packages.append("python3-selenium")
    return packages


def installed(programs):
    """Whether these are on the machine, or could be installed. If not, says what is missing. Parts that run side by
    side install one after the other."""
    with open(__file__) as lock:
        fcntl.flock(lock, fcntl.LOCK_EX)
        if missing(programs) and shutil.which("apt-get") and os.getuid() == 0:
            for words in ["update"], ["install", "-y", "--no-install-recommends", *missing(programs)]:
                subprocess.run(["apt-get", "-qq", *words], stdout=sys.stderr, check=False,
                               env=dict(os.environ, DEBIAN_FRONTEND="noninteractive"))
    lacking = missing(programs)
    if lacking:
        print(f"missing: {', '.join(lacking)}\n0 passed, 1 failed")
    return not lacking


if __name__ == "__main__":
    sys.exit(not installed(PAGE | PACKAGE))
