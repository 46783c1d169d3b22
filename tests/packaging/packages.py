"""Packages for Debian of this repository, as the checks of packages need them."""

import os
import shutil
import subprocess

TOP = os.path.dirname(os.path.dirname(os.path.dirname(os.path.realpath(__file__))))
# what a package needs to be made
TOOL = "dpkg-deb"


def can_be_made():
    return shutil.which(TOOL) is not None


def made(program, folder):
    """The package of a program, made by packaging/package."""
    words = [os.path.join(TOP, "packaging/package"), folder]
    return subprocess.run(words, env={**os.environ, "PROGRAM": program}, stdout=subprocess.PIPE, text=True, check=True).stdout.strip()


def of_version(package, version, folder):
    """The same package with another version."""
    below = os.path.join(folder, "unpacked_" + version)
    subprocess.run([TOOL, "--raw-extract", package, below], check=True)
    control = os.path.join(below, "DEBIAN/control")
    with open(control, encoding="utf-8") as file:
        lines = file.read().splitlines()
    with open(control, "w", encoding="utf-8") as file:
        file.writelines(f"Version: {version}\n" if line.startswith("Version: ") else line + "\n" for line in lines)
    place = os.path.join(folder, f"shipgate_{version}_amd64.deb")
    subprocess.run([TOOL, "--root-owner-group", "--build", below, place], stdout=subprocess.DEVNULL, check=True)
    return place
