"""The kit that `rt` is of, as other scripts use it."""
import functools
import importlib.machinery
import importlib.util
import os
import subprocess
import sys


@functools.cache
def kit():
    """The module with which `rt` makes the prover's words."""
    page = subprocess.run(["rt", "doc"], capture_output=True, text=True, check=True).stdout.strip()
    loader = importlib.machinery.SourceFileLoader("rtlib", f"{os.path.dirname(page)}/bin/rtlib.py")
    made = importlib.util.module_from_spec(importlib.util.spec_from_loader("rtlib", loader))
    sys.modules["rtlib"] = made
    loader.exec_module(made)
    return made
