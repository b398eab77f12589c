"""What the tests of the tools have in common."""

from __future__ import annotations

import contextlib
import importlib.machinery
import importlib.util
import io
import sys
import tempfile
import unittest
from pathlib import Path
from types import ModuleType
from unittest import mock

import program

TOOLS = Path(__file__).resolve().parent
EXAMPLES = TOOLS.parent / "examples"
needs_program = unittest.skipUnless(program.PROGRAM.exists(), "there is no built program")


def tool(name: str) -> ModuleType:
    """The tool of a file that has no ending, as a module."""
    loader = importlib.machinery.SourceFileLoader(name, str(TOOLS / name))
    spec = importlib.util.spec_from_loader(name, loader)
    module = importlib.util.module_from_spec(spec)
    sys.modules[name] = module
    loader.exec_module(module)
    return module


def run(module: ModuleType, words: list, given: str = "") -> tuple:
    """Status, text and words of a run of a tool, with a text on standard input."""
    source, put, said = io.TextIOWrapper(io.BytesIO(given.encode())), io.StringIO(), io.StringIO()
    with mock.patch.object(sys, "stdin", source), contextlib.redirect_stdout(put), contextlib.redirect_stderr(said):
        try:
            status = module.main([str(word) for word in words])
        except SystemExit as end:
            status = end.code
    return status, put.getvalue(), said.getvalue()


class InAFolder(unittest.TestCase):
    """A test with a folder of its own."""

    def setUp(self):
        folder = tempfile.TemporaryDirectory()
        self.addCleanup(folder.cleanup)
        self.folder = Path(folder.name)

    def file(self, name: str, text: str) -> Path:
        (self.folder / name).write_text(text, encoding="utf-8")
        return self.folder / name
