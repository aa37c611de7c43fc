"""What the tests of scripts share."""

import importlib.machinery
import importlib.util
import pathlib
import types


def script(path: pathlib.Path) -> types.ModuleType:
    """A script without a suffix, as a module."""
    loader = importlib.machinery.SourceFileLoader(path.name, str(path))
    spec = importlib.util.spec_from_loader(path.name, loader)
    assert spec is not None
    module = importlib.util.module_from_spec(spec)
    loader.exec_module(module)
    return module
