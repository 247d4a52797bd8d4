"""Small libraries that are loaded before the C library: built by the kit's own clang, without headers or packages."""
import os
import shutil
import subprocess

FOLDER = os.path.dirname(os.path.abspath(__file__))


class Unbuilt(Exception):
    """Why there is no library."""


def compiler():
    """The kit's clang, or one on the path."""
    kit = os.path.dirname(os.path.dirname(os.path.realpath(shutil.which("rt") or "/opt/rattle/bin/rt")))
    own = os.path.join(kit, "toolchain", "bin", "clang")
    found = own if os.access(own, os.X_OK) else shutil.which("clang")
    if found is None:
        raise Unbuilt("there is no clang, neither the kit's nor on the path")
    return found


def build(name, folder):
    """Builds the library of this name in this folder, and returns the name of its file."""
    made = os.path.join(folder, f"{name}.so")
    words = [compiler(), "-shared", "-fPIC", "-O1", "-Wall", "-fno-builtin", "-o", made, os.path.join(FOLDER, f"{name}.c")]
    ran = subprocess.run(words, stdout=subprocess.PIPE, stderr=subprocess.STDOUT, universal_newlines=True, check=False)
    if ran.returncode:
        raise Unbuilt(ran.stdout)
    return made
