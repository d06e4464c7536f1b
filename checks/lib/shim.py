"""Libraries in C that are loaded before the program, and make its machine poor: the files *.c of the checks."""
import os
import shutil
import subprocess

from lib.run import run
from lib.sources import TOP


def built(name, folder):
    """The library that a C compiler (CC, or cc) makes in a folder from checks/NAME.c; None where there is none."""
    compiler = shutil.which(os.environ.get("CC", "cc"))
    if compiler is None:
        return None
    shim = os.path.join(folder, name + ".so")
    source = os.path.join(TOP, "checks", name + ".c")
    subprocess.run([compiler, "-shared", "-fPIC", "-O1", "-o", shim, source, "-ldl"], check=True)
    return shim


def world(shim, **words):
    """The environment of a run with this library, with its variables."""
    return {**os.environ, "LD_PRELOAD": shim, **{name: str(word) for name, word in words.items()}}


def refusing(program, words, folder, shim, number, times=1, **how):
    """Status, standard error and standard output of a run in which so many requests for memory are refused from this
    one on, by refuse_memory.c; and whether there was such a request."""
    read, write = os.pipe()
    with os.fdopen(read, "rb") as refused:
        with os.fdopen(write, "wb") as end:
            numbers = {"REFUSE_AT": number, "REFUSE_TIMES": times, "REFUSED": end.fileno()}
            ran = run(program, words, folder, env=world(shim, **numbers), pass_fds=[end.fileno()], **how)
        return ran, refused.read(1) == b"x"
