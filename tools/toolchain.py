"""The toolchain's command `rt` as a module: how it reads a wrong body, has it checked and judges it."""
import importlib.machinery
import importlib.util
import os
import shutil
import sys


def loaded():
    sys.dont_write_bytecode = True
    loader = importlib.machinery.SourceFileLoader("rt", os.path.realpath(shutil.which("rt")))
    made = importlib.util.module_from_spec(importlib.util.spec_from_loader("rt", loader))
    loader.exec_module(made)
    return made


rt = loaded()


def crates_of(top):
    """The crates of a repository by name, lowest first. Each is asked but once what is below it: rt follows each path."""
    below = {}

    def once(crate):
        if crate.folder not in below:
            below[crate.folder] = list(dict.fromkeys(it for dep in crate.deps for it in [*once(dep), dep]))
        return below[crate.folder]

    rt.rtlib.Crate.below = once
    return {it.name: it for it in rt.rtlib.crates_below(str(top))}
