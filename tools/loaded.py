"""Modules in files whose names don't end in .py, as those of tools."""

import importlib.machinery
import importlib.util


def loaded(name, path):
    """The module that the file holds, by this name."""
    loader = importlib.machinery.SourceFileLoader(name, path)
    made = importlib.util.module_from_spec(importlib.util.spec_from_loader(name, loader))
    loader.exec_module(made)
    return made
