"""What pip asks to build the package (PEP 517), with the standard library alone: a wheel, or a tar of sources.

A wheel has the module's files, and the shared library where it is beside them. The same files give the same bytes.
"""

import base64
import gzip
import hashlib
import io
import os
import re
import tarfile
import zipfile

HERE = os.path.dirname(os.path.abspath(__file__))
LIBRARY = "libmore1090.so"
SOURCES = ["pyproject.toml", "backend.py", "README.md"]
OLDEST = (1980, 1, 1, 0, 0, 0)  # the first time that a zip file can hold


def _read(name):
    with open(os.path.join(HERE, name), "rb") as file:
        return file.read()


def _text(name):
    return _read(name).decode("utf-8")


def _project():
    fields = dict(re.findall(r'^([a-z-]+) = "(.*)"$', _text("pyproject.toml").partition("[project]")[2], re.M))
    fields["version"] = re.search(r'^VERSION = "(.*)"$', _text("more1090/version.py"), re.M).group(1)
    return fields


def _module():
    """The module's files that are installed."""
    for name in sorted(os.listdir(os.path.join(HERE, "more1090"))):
        if name.endswith(".py") or name == "library_folder" or name.startswith(LIBRARY):
            yield "more1090/" + name


def _metadata(project):
    return (
        "Metadata-Version: 2.1\nName: %(name)s\nVersion: %(version)s\nSummary: %(description)s\n"
        "Requires-Python: %(requires-python)s\nLicense: %(license)s\n" % project
    )


def build_wheel(wheel_directory, config_settings=None, metadata_directory=None):
    project = _project()
    files = {name: _read(name) for name in _module()}
    binary = any(name.startswith("more1090/" + LIBRARY) for name in files)
    tag = "py3-none-" + ("linux_x86_64" if binary else "any")
    full = "%(name)s-%(version)s" % project
    info = full + ".dist-info/"
    files[info + "METADATA"] = _metadata(project).encode()
    files[info + "WHEEL"] = (
        "Wheel-Version: 1.0\nGenerator: more1090\nRoot-Is-Purelib: %s\nTag: %s\n" % (str(not binary).lower(), tag)
    ).encode()
    rows = []
    for name, held in files.items():
        digest = base64.urlsafe_b64encode(hashlib.sha256(held).digest()).rstrip(b"=").decode()
        rows.append("%s,sha256=%s,%d\n" % (name, digest, len(held)))
    files[info + "RECORD"] = "".join(rows + [info + "RECORD,,\n"]).encode()
    wheel = "%s-%s.whl" % (full, tag)
    with zipfile.ZipFile(os.path.join(wheel_directory, wheel), "w", zipfile.ZIP_DEFLATED) as archive:
        for name, held in files.items():
            entry = zipfile.ZipInfo(name, OLDEST)
            entry.compress_type = zipfile.ZIP_DEFLATED
            entry.external_attr = 0o644 << 16
            archive.writestr(entry, held)
    return wheel


def build_sdist(sdist_directory, config_settings=None):
    project = _project()
    full = "%(name)s-%(version)s" % project
    files = {name: _read(name) for name in [*SOURCES, *_module()]}
    files["PKG-INFO"] = _metadata(project).encode()
    tar = io.BytesIO()
    with tarfile.open(fileobj=tar, mode="w", format=tarfile.PAX_FORMAT) as archive:
        for name, held in files.items():
            entry = tarfile.TarInfo(full + "/" + name)
            entry.size = len(held)
            archive.addfile(entry, io.BytesIO(held))
    with open(os.path.join(sdist_directory, full + ".tar.gz"), "wb") as file:
        file.write(gzip.compress(tar.getvalue(), mtime=0))
    return full + ".tar.gz"
