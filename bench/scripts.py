"""The scripts of the repository as modules."""
import importlib.machinery
import importlib.util
import os
import sys

TOP = os.path.dirname(os.path.dirname(os.path.abspath(__file__)))
sys.path.append(f"{TOP}/examples")


def module(path):
    """Loads a script."""
    loader = importlib.machinery.SourceFileLoader(os.path.basename(path), f"{TOP}/{path}")
    spec = importlib.util.spec_from_loader(loader.name, loader)
    loaded = importlib.util.module_from_spec(spec)
    loader.exec_module(loaded)
    return loaded
