#!/usr/bin/env python3
"""Lays the libraries that gates on this machine have kept into this checkout, so that a check begins right above them and proves none of them again.

    yard/lay.py [NAME ..]            of all crates, or of those below the crates that are named; tells which are not kept yet

A library serves where its crate and all below it have the text that a gate proved. Each is linked, which takes a second or two for all.
"""

import importlib.machinery
import importlib.util
import os
import pathlib
import shutil
import sys

from common import TOP

sys.dont_write_bytecode = True


def toolkit():
    """The toolkit's driver as a module: it knows what a library is kept under."""
    path = os.path.realpath(shutil.which("rt") or sys.exit("lay: the toolkit's command rt is not on the path"))
    loader = importlib.machinery.SourceFileLoader("rt_driver", path)
    module = importlib.util.module_from_spec(importlib.util.spec_from_loader("rt_driver", loader))
    sys.modules["rt_driver"] = module
    loader.exec_module(module)
    return module


def is_laid(stamp_file, stamp, mark, key):
    return stamp_file.is_file() and stamp_file.read_text() == stamp and mark.is_file() and mark.read_text() == key


def lay(kept, crate):
    """Lays one crate's library; whether it is kept."""
    key, rlib = kept.key(crate), pathlib.Path(crate.folder) / "out" / "rlib"
    if not os.path.isdir(kept.place(crate, False, key)):
        return False
    if not is_laid(rlib / "stamp", crate.stamp(), rlib / "laid", key):
        shutil.rmtree(rlib, ignore_errors=True)
        rlib.mkdir(parents=True)
        if not kept.give(crate, False, key):
            return False
        (rlib / "stamp").write_text(crate.stamp())
        (rlib / "laid").write_text(key)
    kept.is_built(crate)
    return True


def main(names):
    driver = toolkit()
    os.chdir(TOP)
    driver.Crate.allowed = driver.handles_of(str(TOP))
    driver.rtlib.Crate = driver.Crate
    crates = sorted(driver.rtlib.crates_below(str(TOP)), key=lambda it: len(it.below()))
    wanted = {below.name for it in crates if it.name in names for below in it.below()} if names else {it.name for it in crates}
    kept, missing = driver.Kept(crates), []
    for it in crates:
        if it.is_program or it.name not in wanted:
            continue
        if any(below.name not in kept.rlibs for below in it.below()) or not lay(kept, it):
            missing.append(it.name)
    print("lay: " + (f"not kept yet: {' '.join(missing)}" if missing else "all laid"))


if __name__ == "__main__":
    main(sys.argv[1:])
