"""Scripts without an ending in their names, as modules."""
import importlib.machinery
import importlib.util
import os


def script(place):
    """A script as a module; what it does if it is started, it has to leave to that."""
    loader = importlib.machinery.SourceFileLoader(os.path.basename(place), place)
    module = importlib.util.module_from_spec(importlib.util.spec_from_loader(loader.name, loader))
    loader.exec_module(module)
    return module
