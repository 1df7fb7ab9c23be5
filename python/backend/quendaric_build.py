"""Builds the package for pip (PEP 517), by Python's own library and a C compiler.

The unit is dist/quendaric.c, compiled to a shared library that the package loads: no header of Python's is needed, and one wheel serves every
Python 3 of a platform. CC names the compiler; else it is clang where there is one, since it makes faster code of this file, else gcc, else cc.
A source distribution has the two files of dist/ in its folder dist/."""

import base64
import hashlib
import io
import os
import re
import shutil
import subprocess
import sysconfig
import tarfile
import tempfile
import zipfile

HERE = os.path.dirname(os.path.dirname(os.path.abspath(__file__)))
SOURCES = ("quendaric.c", "quendaric.h")
DATE = (2026, 1, 1, 0, 0, 0)  # so that the same files make the same wheel


def _read(*parts):
    with open(os.path.join(HERE, *parts), "rb") as file:
        return file.read()


def _version():
    return re.search(rb'^VERSION = "([0-9.]+)"$', _read("quendaric", "exports.py"), re.M)[1].decode()


def _metadata():
    project = _read("pyproject.toml").decode()
    field = {name: re.search(rf'^{name} = "(.*)"$', project, re.M)[1] for name in ("name", "description", "requires-python")}
    lines = ["Metadata-Version: 2.1", f"Name: {field['name']}", f"Version: {_version()}", f"Summary: {field['description']}"]
    return "\n".join(lines + [f"Requires-Python: {field['requires-python']}", ""]).encode()


def _unit():
    """The folder that has the C: dist/ of this folder, in a source distribution, or the one beside it."""
    for folder in (os.path.join(HERE, "dist"), os.path.join(HERE, "..", "dist")):
        if all(os.path.isfile(os.path.join(folder, name)) for name in SOURCES):
            return folder
    raise SystemExit("quendaric: dist/quendaric.c and quendaric.h are not there (a pip before 21.3 builds in a copy without them)")


def _compiler():
    """The compiler's command, as words."""
    chosen = os.environ.get("CC", "").split()
    found = chosen or next(([name] for name in ("clang", "gcc", "cc") if shutil.which(name)), None)
    if not found:
        raise SystemExit("quendaric: there is no C compiler (clang, gcc or cc; CC names another)")
    return found


def _library():
    """The unit as a shared library."""
    with tempfile.TemporaryDirectory() as folder:
        made = os.path.join(folder, "_unit.so")
        command = [*_compiler(), "-O2", "-std=c99", "-shared", "-fPIC", os.path.join(_unit(), "quendaric.c"), "-o", made]
        print("quendaric: " + " ".join(command), flush=True)
        subprocess.check_call(command)
        with open(made, "rb") as file:
            return file.read()


def _package():
    """The files of the package, and what stands in them."""
    names = sorted(name for name in os.listdir(os.path.join(HERE, "quendaric")) if name.endswith((".py", ".typed")))
    return {"quendaric/" + name: _read("quendaric", name) for name in names}


def _platform():
    return re.sub(r"[-.]", "_", sysconfig.get_platform())


def build_wheel(wheel_directory, config_settings=None, metadata_directory=None):
    """Writes the wheel; its name."""
    about = f"quendaric-{_version()}.dist-info/"
    tag = f"py3-none-{_platform()}"
    files = {**_package(), "quendaric/_unit.so": _library(), about + "METADATA": _metadata()}
    files[about + "WHEEL"] = f"Wheel-Version: 1.0\nGenerator: quendaric_build\nRoot-Is-Purelib: false\nTag: {tag}\n".encode()
    record = ""
    for name, data in files.items():
        digest = base64.urlsafe_b64encode(hashlib.sha256(data).digest()).rstrip(b"=").decode()
        record += f"{name},sha256={digest},{len(data)}\n"
    files[about + "RECORD"] = (record + about + "RECORD,,\n").encode()
    wheel = f"quendaric-{_version()}-{tag}.whl"
    with zipfile.ZipFile(os.path.join(wheel_directory, wheel), "w", zipfile.ZIP_DEFLATED) as out:
        for name, data in files.items():
            entry = zipfile.ZipInfo(name, DATE)
            entry.compress_type, entry.external_attr = zipfile.ZIP_DEFLATED, 0o644 << 16
            out.writestr(entry, data)
    return wheel


def build_sdist(sdist_directory, config_settings=None):
    """Writes the source distribution; its name."""
    top = f"quendaric-{_version()}"
    files = {**_package(), "PKG-INFO": _metadata(), "pyproject.toml": _read("pyproject.toml")}
    files["backend/quendaric_build.py"] = _read("backend", "quendaric_build.py")
    for name in SOURCES:
        files["dist/" + name] = _read(_unit(), name)
    with tarfile.open(os.path.join(sdist_directory, top + ".tar.gz"), "w:gz", format=tarfile.PAX_FORMAT) as out:
        for name, data in sorted(files.items()):
            entry = tarfile.TarInfo(f"{top}/{name}")
            entry.size = len(data)
            out.addfile(entry, io.BytesIO(data))
    return top + ".tar.gz"
