"""What the tests share: the tool run as a person runs it, in a folder of its own."""

import contextlib
import importlib.machinery
import importlib.util
import io
import os
import subprocess
import sys
import tempfile
import unittest

HERE = os.path.dirname(os.path.abspath(__file__))
STATIONS = os.path.dirname(HERE)
TOP = os.path.dirname(STATIONS)
EXAMPLES = os.path.join(TOP, "examples")
TRIALS = os.path.join(STATIONS, "trials.csv")
# the columns of trials.csv, as the README names them
COLUMNS = ["--label", "plan", "--number", "trial", "--minimise", "water (l/tree)", "cost (EUR/ha)", "--maximise", "yield (kg/tree)", "--at-least", "far end (m)", "10",
           "--at-most", "salt (dS/m)", "2.4", "--float", "valve (turns)", "--int", "run (h)", "--choice", "mulch", "--keep", "16"]

sys.dont_write_bytecode = True
sys.path.insert(0, STATIONS)




def command_line():
    """The tool's own file, which has no ending, as a module."""
    loader = importlib.machinery.SourceFileLoader("plans", os.path.join(STATIONS, "plans"))
    module = importlib.util.module_from_spec(importlib.util.spec_from_loader("plans", loader))
    loader.exec_module(module)
    return module


PLANS = command_line()


def read(path):
    with open(path, "rb") as file:
        return file.read()


def choose(data):
    return subprocess.run([os.path.join(TOP, "target", "bin", "choose")], input=data, stdout=subprocess.PIPE, check=True).stdout


class Case(unittest.TestCase):
    """A test with a folder of its own."""

    def setUp(self):
        held = tempfile.TemporaryDirectory()
        self.addCleanup(held.cleanup)
        self.folder = os.path.realpath(held.name)
        self.addCleanup(os.chdir, os.getcwd())
        os.chdir(self.folder)

    def path(self, name):
        return os.path.join(self.folder, name)

    def put(self, name, content):
        with open(self.path(name), "wb") as file:
            file.write(content if isinstance(content, bytes) else content.encode("utf-8"))
        return self.path(name)

    def files(self):
        """Every file in the folder, with what it holds."""
        return {name: read(self.path(name)) for name in os.listdir(self.folder)}

    def plans(self, *arguments):
        """The tool's status, what it prints and what it complains of."""
        out, complaint = io.StringIO(), io.StringIO()
        with contextlib.redirect_stdout(out), contextlib.redirect_stderr(complaint):
            try:
                status = PLANS.main(arguments)
            except SystemExit as ended:
                status = ended.code
        return status, out.getvalue(), complaint.getvalue()

    def program(self, tool, *arguments):
        """The same, of the tool in a folder, run as a program."""
        done = subprocess.run([os.path.join(tool, "plans"), *arguments], stdout=subprocess.PIPE, stderr=subprocess.PIPE)
        return done.returncode, done.stdout.decode(), done.stderr.decode()

    def done(self, *arguments):
        """What the tool prints where nothing is to be mended."""
        status, out, complaint = self.plans(*arguments)
        self.assertEqual((status, complaint), (0, ""))
        return out

    def refused(self, *arguments):
        """What it complains of where something is; nothing is written then."""
        before = self.files()
        status, out, complaint = self.plans(*arguments)
        self.assertEqual((status, out), (2, ""), complaint)
        self.assertNotIn("Traceback", complaint)
        self.assertEqual(self.files(), before)
        return complaint
