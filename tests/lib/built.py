"""The program that ./cnum runs."""
import os
import pathlib
import subprocess

TOP = pathlib.Path(__file__).resolve().parents[2]


def built(clone=TOP):
    """The path of the program that ./cnum runs in a clone. ./cnum first proves and builds it, if it has to."""
    where = {**os.environ, "CNUM_WHERE": "1"}
    return subprocess.run([f"{clone}/cnum"], check=True, stdout=subprocess.PIPE, text=True, env=where).stdout.strip()
