"""Where the kit is, and the modules that its `rt` is made of."""
import functools
import importlib.machinery
import importlib.util
import os


@functools.cache
def folder():
    """The kit's folder."""
    with os.popen("rt doc") as told:
        return os.path.dirname(told.read().strip())


def module(name):
    """The module in the file of this name beside `rt`."""
    loader = importlib.machinery.SourceFileLoader(name.removesuffix(".py"), f"{folder()}/bin/{name}")
    made = importlib.util.module_from_spec(importlib.util.spec_from_loader(loader.name, loader))
    loader.exec_module(made)
    return made


def crate_here(rt):
    """The crate of this folder, as that module of the kit has it."""
    # a sum over the sources asks for those of a crate below once for each path that leads to it
    rt.Crate.stamp = functools.cache(rt.Crate.stamp)
    here = os.getcwd()
    return rt.Crate(here, rt.root_above(here) or here, {})
