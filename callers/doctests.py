"""Runs the examples of the package's docstrings, each line of them a case."""

import doctest
import importlib
import pkgutil
import sys

import kolbrees


def main() -> int:
    """Prints how many passed and failed. The exit status: 0 if none failed."""
    names = [kolbrees.__name__]
    names += [module.name for module in pkgutil.iter_modules(kolbrees.__path__, "kolbrees.")]
    results = [doctest.testmod(importlib.import_module(name)) for name in names]
    failed = sum(result.failed for result in results)
    attempted = sum(result.attempted for result in results)
    print(f"{attempted - failed} passed, {failed} failed")
    return 1 if failed else 0


if __name__ == "__main__":
    sys.exit(main())
