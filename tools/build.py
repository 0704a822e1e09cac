#!/usr/bin/env python3
"""Builds the static library or a program by the commands of the kit, and puts it where the tests look for it.

usage: python3 tools/build.py NAME..      at the top of the repository

A static library goes to target/staticlib/libNAME.a, by `rt lib`; a program to target/bin/NAME, by `rt run` with no input. Both check the
crate and what lies below it, and what the check says is printed: its last lines tell what is assumed of C functions.
"""

import os
import shutil
import subprocess
import sys


def build(name):
    """Builds one crate, and returns whether that went well."""
    folder = f"crates/{name}"
    program = os.path.exists(f"{folder}/src/main.rt")
    call = ["rt", "run" if program else "lib"]
    if subprocess.run(call, cwd=folder, stdin=subprocess.DEVNULL).returncode:
        return False
    to = "target/bin" if program else "target/staticlib"
    os.makedirs(to, exist_ok=True)
    shutil.copy(f"{folder}/out/{name if program else f'lib{name}.a'}", to)
    return True


sys.exit(0 if all([build(name) for name in sys.argv[1:]]) else 1)
