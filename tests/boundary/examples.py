"""Runs the examples in the Python module's docstrings and prints how many there are."""

import doctest
import importlib
import pkgutil
import sys

import cession

names = ["cession"] + [f"cession.{module.name}" for module in pkgutil.iter_modules(cession.__path__)]
results = [doctest.testmod(importlib.import_module(name)) for name in names]
if any(result.failed or not result.attempted for result in results):
    sys.exit("examples.py: an example fails, or a module has none")
print(sum(result.attempted for result in results))
