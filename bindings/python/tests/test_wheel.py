"""The wheel: how it is made, and that it can be installed and used without network and compiler."""

import hashlib
import importlib.util
import os
import re
import subprocess
import sys
import tempfile
import unittest
import zipfile
from pathlib import Path

import first_pass._library

PYTHON = Path(__file__).resolve().parents[1]
VERSION = (PYTHON.parents[1] / "VERSION").read_text().strip()
LIBRARY = first_pass._library._library._name


def environment(**more):
    """The environment of a user who has neither a compiler nor this package."""
    kept = {name: value for name, value in os.environ.items() if not re.match("PYTHON|FIRST_PASS", name)}
    return {
        **kept,
        "CC": "/bin/false",
        "PIP_NO_INDEX": "1",
        "PIP_ROOT_USER_ACTION": "ignore",
        "PIP_DISABLE_PIP_VERSION_CHECK": "1",
        **more,
    }


class WheelTest(unittest.TestCase):
    def setUp(self):
        folder = tempfile.TemporaryDirectory()
        self.addCleanup(folder.cleanup)
        self.folder = Path(folder.name)

    def build(self, folder, **more):
        ran = subprocess.run(
            [sys.executable, PYTHON / "build-wheel", LIBRARY, self.folder / folder],
            env=environment(**more),
            stdout=subprocess.PIPE,
            check=True,
        )
        return Path(ran.stdout.decode().strip())

    def check_installed(self, *words, **more):
        """Installs something into a folder, and uses it there."""
        room = self.folder / "installed"
        pip = [sys.executable, "-m", "pip", "install", "--quiet", "--target", room, *words]
        subprocess.run(pip, env=environment(**more), check=True)
        code = (
            "import first_pass; print(first_pass.__version__, first_pass.__file__, first_pass.outline('# a')[0].text)"
        )
        used = [sys.executable, "-c", code]
        ran = subprocess.run(used, env=environment(PYTHONPATH=str(room)), cwd="/", stdout=subprocess.PIPE, check=True)
        self.assertEqual(ran.stdout.decode().split(), [VERSION, str(room / "first_pass/__init__.py"), "a"])
        script = {"env": environment(PYTHONPATH=str(room)), "stdout": subprocess.PIPE, "check": True}
        ran = subprocess.run([room / "bin/first_pass_py", "outline"], input=b"# a\n", **script)
        self.assertIn(b'"text":"a"', ran.stdout)
        ran = subprocess.run([room / "bin/first_pass_py", "--help"], **script)
        self.assertTrue(ran.stdout.startswith(b"usage: first_pass_py [-h]"), ran.stdout)

    def test_name_and_files(self):
        wheel = self.build("a")
        self.assertRegex(wheel.name, rf"^first_pass-{re.escape(VERSION)}-py3-none-manylinux_2_\d+_x86_64\.whl$")
        with zipfile.ZipFile(wheel) as archive:
            self.assertIsNone(archive.testzip())
            names = archive.namelist()
            self.assertEqual(archive.read("first_pass/libfirst_pass.so.0"), Path(LIBRARY).read_bytes())
            record = archive.read(f"first_pass-{VERSION}.dist-info/RECORD").decode().splitlines()
        self.assertEqual(sorted(line.split(",")[0] for line in record), sorted(names))
        for name in ("first_pass/py.typed", "first_pass/__init__.py"):
            self.assertIn(name, names)
        for name in ("LICENSE", "THIRD-PARTY-LICENSES"):
            self.assertIn(f"first_pass-{VERSION}.dist-info/{name}", names)

    def test_bytes_are_the_same_each_time(self):
        digests = [hashlib.sha256(self.build(folder).read_bytes()).digest() for folder in ("a", "b")]
        self.assertEqual(digests[0], digests[1])
        dated = self.build("c", SOURCE_DATE_EPOCH="1700000000")
        with zipfile.ZipFile(dated) as archive:
            self.assertEqual({entry.date_time for entry in archive.infolist()}, {(2023, 11, 14, 22, 13, 20)})

    def test_what_is_no_library_is_refused(self):
        for path in (__file__, self.folder / "none"):
            ran = subprocess.run(
                [sys.executable, PYTHON / "build-wheel", path, self.folder], stderr=subprocess.PIPE, check=False
            )
            self.assertEqual(ran.returncode, 1)
            self.assertRegex(ran.stderr.decode(), "^build-wheel: .*\n$")

    @unittest.skipUnless(importlib.util.find_spec("pip"), "pip is not installed")
    def test_the_wheel_is_installed(self):
        self.check_installed(self.build("a"))

    @unittest.skipUnless(importlib.util.find_spec("pip"), "pip is not installed")
    def test_the_checkout_is_installed(self):
        self.check_installed(PYTHON, FIRST_PASS_LIBRARY=LIBRARY)


class LibraryTest(unittest.TestCase):
    def fault(self, code, **more):
        """The last line of what Python says of code that fails."""
        ran = subprocess.run(
            [sys.executable, "-c", code], env={**os.environ, **more}, stderr=subprocess.PIPE, check=False
        )
        self.assertEqual(ran.returncode, 1)
        return ran.stderr.decode().splitlines()[-1]

    def test_no_library(self):
        for library in ("/no/such/file", __file__, "libc.so.6"):
            said = self.fault("import first_pass", FIRST_PASS_LIBRARY=library)
            self.assertRegex(said, "^ImportError: first_pass can't load its library: .*FIRST_PASS_LIBRARY")

    def test_another_version_of_the_library(self):
        code = "import ctypes, unittest.mock as mock; ctypes.CDLL = mock.MagicMock(); "
        code += "ctypes.CDLL().first_pass_version.return_value = b'0.10.0'; import first_pass"
        said = self.fault(code, FIRST_PASS_LIBRARY="L")
        self.assertEqual(said, "ImportError: first_pass needs version 0.1 of its library, and L is 0.10.0")


if __name__ == "__main__":
    unittest.main()
