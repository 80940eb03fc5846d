"""Calls of commands for the tests, within the test's own process, since a process for each takes long."""
import contextlib
import io
import os
import subprocess
import sys
from unittest import mock

TOOLS = os.path.dirname(os.path.dirname(os.path.abspath(__file__)))
sys.path.insert(0, TOOLS)

import command


def called(module, *words, folder=None):
    """What a call of a command in a folder ends with: its status, and what it puts on standard output and error."""
    out, errors, here = io.StringIO(), io.StringIO(), os.getcwd()
    os.chdir(folder or here)
    try:
        with contextlib.redirect_stdout(out), contextlib.redirect_stderr(errors), mock.patch("sys.argv", [module.__file__, *words]):
            status = command.status_of(module.main)
    finally:
        os.chdir(here)
    return subprocess.CompletedProcess(words, status, out.getvalue(), errors.getvalue())
