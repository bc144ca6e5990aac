"""The toolchain's own command rt as a module, for build.py, trial.py and bench/plant.py: it has the crates, their order, and the scheduler of
its gate."""
import importlib.machinery
import importlib.util
import os
import shutil
import threading


def module():
    """The module, or None if rt isn't on the path."""
    command = shutil.which("rt")
    if not command:
        return None
    loader = importlib.machinery.SourceFileLoader("rt", os.path.realpath(command))
    made = importlib.util.module_from_spec(importlib.util.spec_from_loader("rt", loader))
    loader.exec_module(made)
    stamp_each_once(made.rtlib.Crate)
    return made


def stamp_each_once(crate_type):
    """Makes a crate's stamp go over each crate below it once, and not once for each way that leads there. The stamp is the same."""
    whole, here = crate_type.stamp, threading.local()

    def stamp(crate):
        if hasattr(here, "known"):
            if crate.name not in here.known:
                here.known[crate.name] = whole(crate)
            return here.known[crate.name]
        here.known = {}
        try:
            return whole(crate)
        finally:
            del here.known

    crate_type.stamp = stamp
