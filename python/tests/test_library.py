"""Where the shared library is looked for: each place alone, in a copy of the module."""

import os
import pathlib
import shutil
import subprocess
import sys
import tempfile
import unittest

import more1090
from more1090 import library

MODULE = pathlib.Path(more1090.__file__).parent
ASK = "import more1090; print(more1090.level(0) > 0, more1090.library.library.path)"


def built():
    """The library that this test itself has loaded; the system's own name is resolved."""
    more1090.level(0)
    path = library.library.path
    if os.path.exists(path):
        return os.path.realpath(path)
    with open("/proc/self/maps", encoding="utf-8") as maps:
        return next(line.split()[-1] for line in maps if "libmore1090.so" in line)


class Places(unittest.TestCase):
    def setUp(self):
        self.folder = pathlib.Path(tempfile.mkdtemp())
        self.addCleanup(shutil.rmtree, str(self.folder))
        self.module = self.folder / "module/more1090"
        shutil.copytree(str(MODULE), str(self.module), ignore=shutil.ignore_patterns("__pycache__", "library_folder", "*.so*"))
        self.libraries = self.folder / "lib"
        self.libraries.mkdir()
        self.there = self.libraries / library.FILE
        # Without the library of an installed tree: pkg-config and the system know none.
        self.environment = {"PATH": os.environ["PATH"], "PKG_CONFIG_LIBDIR": str(self.folder), "PYTHONPATH": str(self.module.parent)}

    def ask(self, **more):
        ran = subprocess.run(
            [sys.executable, "-c", ASK],
            cwd=str(self.folder),
            env=dict(self.environment, **more),
            stdout=subprocess.PIPE,
            stderr=subprocess.PIPE,
        )
        return ran.returncode, ran.stdout.decode().strip(), ran.stderr.decode()

    def put(self):
        shutil.copy(built(), str(self.there))

    def test_named(self):
        self.put()
        self.assertEqual(self.ask(MORE1090_LIBRARY=str(self.there)), (0, "True %s" % self.there, ""))

    def test_named_is_the_only_place(self):
        shutil.copy(built(), str(self.module / library.FILE))
        status, _, said = self.ask(MORE1090_LIBRARY=str(self.folder / "none.so"))
        self.assertEqual(status, 1)
        self.assertIn("none.so", said)

    def test_beside(self):
        shutil.copy(built(), str(self.module / library.FILE))
        self.assertEqual(self.ask(), (0, "True %s" % (self.module / library.FILE), ""))

    def test_tree(self):
        module = self.folder / "prefix/share/more1090/python/more1090"
        module.parent.mkdir(parents=True)
        self.module.rename(module)
        self.there = self.folder / "prefix/lib" / library.FILE
        self.there.parent.mkdir()
        self.put()
        self.assertEqual(self.ask(PYTHONPATH=str(module.parent)), (0, "True %s" % self.there, ""))

    def test_folder(self):
        self.put()
        (self.module / "library_folder").write_text(str(self.libraries) + "\n")
        self.assertEqual(self.ask(), (0, "True %s" % self.there, ""))

    @unittest.skipIf(shutil.which("pkg-config") is None, "pkg-config is not on this machine")
    def test_pkg_config(self):
        self.put()
        lines = "libdir=%s\nName: more1090\nDescription: d\nVersion: 1\n" % self.libraries
        (self.folder / "more1090.pc").write_text(lines)
        self.assertEqual(self.ask(), (0, "True %s" % self.there, ""))

    def test_system(self):
        self.put()
        self.assertEqual(self.ask(LD_LIBRARY_PATH=str(self.libraries)), (0, "True " + library.FILE, ""))

    def test_nowhere(self):
        status, _, said = self.ask()
        if status == 0:
            self.skipTest("the library is installed where the system looks")
        self.assertIn("MORE1090_LIBRARY may name it", said)

    def test_another_library(self):
        status, _, said = self.ask(MORE1090_LIBRARY="libc.so.6")
        self.assertEqual(status, 1)
        self.assertIn("has no function more1090_open", said)
