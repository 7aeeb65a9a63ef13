"""What the checks and experiments in Python share."""
import os
import sys
from importlib.machinery import SourceFileLoader
from importlib.util import module_from_spec, spec_from_loader

TOP = os.path.dirname(os.path.dirname(os.path.abspath(__file__)))
MQRUN = f"{TOP}/crates/mqrun/out/mqrun"
MQLOG = f"{TOP}/crates/mqlog/out/mqlog"
# What says which schedule of a program is run next.
ENGINE = os.environ.get("YAK_ENGINE", f"{TOP}/crates/mqexplore/out/mqexplore")
PROGRAMS = {"mqrun": MQRUN, "mqlog": MQLOG}


def tool(path):
    """Loads a script, given by its path in the repository, as a module."""
    sys.dont_write_bytecode = True
    name = os.path.basename(path)
    spec = spec_from_loader(name, SourceFileLoader(name, f"{TOP}/{path}"))
    module = module_from_spec(spec)
    spec.loader.exec_module(module)
    return module
