"""The one place where the harness finds its files: every Python script imports this first, and all else as usual (`from lib import model`).

It is no script itself. The script's own folder leaves the path, so that no script is taken for a module of its name, be it ours or Python's own."""
import importlib.machinery
import importlib.util
import os
import sys

HARNESS = os.path.dirname(os.path.dirname(os.path.abspath(__file__)))
ROOT = os.path.dirname(HARNESS)
BUILT = os.path.join(HARNESS, 'target')
ORACLE = os.path.join(BUILT, 'oracle')
PARSE = os.path.join(BUILT, 'parse')
GRAPHQL_JS = os.path.join(HARNESS, 'graphql.js')
INTROSPECTION = os.path.join(HARNESS, 'introspection.txt')
REPLAYED = os.path.join(ROOT, 'crates', 'replay', 'data')
HEADER = os.path.join(ROOT, 'include', 'gimletaspen.h')


def program(name, *path):
    """A program of this repository as a module; Python imports by itself only what ends in `.py`."""
    source = importlib.machinery.SourceFileLoader(name, os.path.join(ROOT, *path))
    made = importlib.util.module_from_spec(importlib.util.spec_from_loader(name, source))
    source.exec_module(made)
    return made


sys.dont_write_bytecode = True
sys.path[0] = HARNESS
cards_tool = program('cards_tool', 'tools', 'cards')
