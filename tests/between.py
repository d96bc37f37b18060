"""The library of between.c, which changes the system calls of the program that it is preloaded to."""
import os
import pathlib
import shutil
import subprocess

FLAGS = ["-std=c11", "-Wall", "-Wextra", "-Werror", "-shared", "-fPIC"]


def built(folder):
    """The library, made in a folder; or None where cc is not installed."""
    if shutil.which("cc") is None:
        return None
    library = pathlib.Path(folder) / "between.so"
    subprocess.run(["cc", *FLAGS, "-o", library, pathlib.Path(__file__).with_suffix(".c"), "-ldl"], check=True)
    return library


def environment(library, **settings):
    """The environment of a program with the library and its settings."""
    return {**os.environ, "LD_PRELOAD": str(library), **{f"BETWEEN_{name.upper()}": str(value) for name, value in settings.items()}}
