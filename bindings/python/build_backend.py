"""Makes the wheel of first_pass: the package with a shared library that was built before.

Nothing is compiled or fetched. `pip install .` calls `build_wheel`, and FIRST_PASS_LIBRARY names the library's file.
The command `build-wheel` calls `write_wheel`.
"""

import base64
import hashlib
import os
import re
import time
import zipfile
from pathlib import Path

HERE = Path(__file__).resolve().parent
TOP = HERE.parent.parent
LIBRARY = "libfirst_pass.so.0"
EARLIEST = 315532800  # 1980, before which a zip file can't have a time
X86_64 = b"\x3e\x00"

METADATA = """\
Metadata-Version: 2.1
Name: first_pass
Version: {version}
Summary: The blocks of a Markdown text as a tree with byte ranges, by a parser whose result is proved
License: MIT
Requires-Python: >=3.9
Classifier: Operating System :: POSIX :: Linux
Classifier: Programming Language :: Python :: 3
Classifier: Topic :: Text Processing :: Markup :: Markdown
Classifier: Typing :: Typed
Provides-Extra: numpy
Requires-Dist: numpy; extra == "numpy"
Description-Content-Type: text/markdown

{readme}"""
# The name of the program has a suffix, as `first_pass` is the proved command.
ENTRY_POINTS = """\
[console_scripts]
first_pass_py = first_pass._command:main
"""
WHEEL = """\
Wheel-Version: 1.0
Generator: first_pass
Root-Is-Purelib: false
Tag: {tag}
"""


class UnsupportedOperation(Exception):
    """What pip asks for and this backend doesn't make."""


def build_wheel(wheel_directory, config_settings=None, metadata_directory=None):
    """Makes the wheel in a folder, and returns its name."""
    library = os.environ.get("FIRST_PASS_LIBRARY")
    if not library:
        raise SystemExit(f"let FIRST_PASS_LIBRARY name the file {LIBRARY}")
    return write_wheel(Path(library), Path(wheel_directory))


def build_sdist(sdist_directory, config_settings=None):
    """A source distribution would have no library."""
    raise UnsupportedOperation("first_pass has no source distribution: its library is built in a checkout")


def write_wheel(path, folder):
    """Writes the wheel with the shared library of a path into a folder, and returns its name."""
    library = path.read_bytes()
    version = (TOP / "VERSION").read_text().strip()
    tag = f"py3-none-{platform_of(library)}"
    info = f"first_pass-{version}.dist-info"
    sources = [path for path in (HERE / "src/first_pass").iterdir() if path.suffix == ".py" or path.name == "py.typed"]
    files = {f"first_pass/{path.name}": path.read_bytes() for path in sources}
    files[f"first_pass/{LIBRARY}"] = library
    files[f"{info}/METADATA"] = METADATA.format(version=version, readme=(HERE / "README.md").read_text()).encode()
    files[f"{info}/WHEEL"] = WHEEL.format(tag=tag).encode()
    files[f"{info}/entry_points.txt"] = ENTRY_POINTS.encode()
    for name in ("LICENSE", "THIRD-PARTY-LICENSES"):
        files[f"{info}/{name}"] = (TOP / name).read_bytes()
    files = dict(sorted(files.items()))
    files[f"{info}/RECORD"] = record_of(files, f"{info}/RECORD").encode()
    name = f"first_pass-{version}-{tag}.whl"
    write_zip(folder / name, files)
    return name


def platform_of(library):
    """The platform that a library is built for, with the oldest glibc that has all its symbols (PEP 600)."""
    if library[:4] != b"\x7fELF" or library[18:20] != X86_64:
        raise ValueError("the library has to be a shared library of x86-64 Linux")
    needed = [int(minor) for minor in re.findall(rb"GLIBC_2\.(\d+)", library)]
    return f"manylinux_2_{max(needed + [17])}_x86_64"


def record_of(files, own_name):
    """The list of all files of a wheel, each with its digest."""
    lines = []
    for name, content in files.items():
        digest = base64.urlsafe_b64encode(hashlib.sha256(content).digest()).rstrip(b"=").decode()
        lines.append(f"{name},sha256={digest},{len(content)}\n")
    return "".join(lines) + f"{own_name},,\n"


def write_zip(path, files):
    """Writes a zip file whose bytes depend only on the files and on SOURCE_DATE_EPOCH. It isn't compressed, since
    versions of zlib differ."""
    date = time.gmtime(max(EARLIEST, int(os.environ.get("SOURCE_DATE_EPOCH", EARLIEST))))[:6]
    with zipfile.ZipFile(path, "w") as archive:
        for name, content in files.items():
            entry = zipfile.ZipInfo(name, date)
            entry.external_attr = 0o100644 << 16
            archive.writestr(entry, content)
