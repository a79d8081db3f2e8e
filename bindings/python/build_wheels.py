"""Builds the wheel of this folder for pip, with nothing but Python's own library, so that no network is needed.

The wheel has the package src/photofleet, and beside it the shared library where one is at hand: the file that
PHOTOFLEET_LIBRARY names, or else out/c/libphotofleet.so of the repository, as tools/build/build-c makes it. Without one the
package looks for the library when it is used.
"""
import base64
import hashlib
import os
import pathlib
import sysconfig
import tarfile
import tomllib
import zipfile

HERE = pathlib.Path(__file__).resolve().parent
PROJECT = tomllib.loads((HERE / "pyproject.toml").read_text(encoding="utf-8"))["project"]
NAME, VERSION = PROJECT["name"], PROJECT["version"]
INFO = f"{NAME}-{VERSION}.dist-info"


def library():
    """The shared library that the wheel is to have, if there is one."""
    given = os.environ.get("PHOTOFLEET_LIBRARY")
    path = pathlib.Path(given) if given else HERE.parent.parent / "out" / "c" / "libphotofleet.so"
    if given and not (path.is_file() and ".so" in path.name):
        raise SystemExit(f"PHOTOFLEET_LIBRARY: {path} is no shared library")
    return path if path.is_file() else None


def metadata():
    lines = ["Metadata-Version: 2.1", f"Name: {NAME}", f"Version: {VERSION}", f"Summary: {PROJECT['description']}", "License: MIT"]
    lines.append(f"Requires-Python: {PROJECT['requires-python']}")
    for extra, needed in PROJECT["optional-dependencies"].items():
        lines.append(f"Provides-Extra: {extra}")
        lines += [f"Requires-Dist: {it}; extra == '{extra}'" for it in needed]
    lines.append("Description-Content-Type: text/markdown")
    return "\n".join(lines) + "\n\n" + (HERE / "README.md").read_text(encoding="utf-8")


def tag(has_library):
    return f"py3-none-{sysconfig.get_platform().replace('-', '_').replace('.', '_')}" if has_library else "py3-none-any"


def write_wheel(folder, files, has_library):
    """Writes a wheel of these files, by their names in it, with the list of them that pip checks."""
    kind = f"Wheel-Version: 1.0\nGenerator: {NAME}\nRoot-Is-Purelib: {str(not has_library).lower()}\nTag: {tag(has_library)}\n"
    files = files | {f"{INFO}/METADATA": metadata().encode(), f"{INFO}/WHEEL": kind.encode()}
    rows = []
    path = pathlib.Path(folder) / f"{NAME}-{VERSION}-{tag(has_library)}.whl"
    with zipfile.ZipFile(path, "w", zipfile.ZIP_DEFLATED) as wheel:
        for name, content in files.items():
            wheel.writestr(name, content)
            digest = base64.urlsafe_b64encode(hashlib.sha256(content).digest()).rstrip(b"=").decode()
            rows.append(f"{name},sha256={digest},{len(content)}\n")
        wheel.writestr(f"{INFO}/RECORD", "".join(rows) + f"{INFO}/RECORD,,\n")
    return path.name


# What pip calls.


def build_wheel(wheel_directory, config_settings=None, metadata_directory=None):
    package = HERE / "src" / NAME
    files = {f"{NAME}/{it.name}": it.read_bytes() for it in sorted(package.iterdir()) if it.suffix == ".py" or it.name == "py.typed"}
    found = library()
    if found:
        files[f"{NAME}/libphotofleet.so"] = found.read_bytes()
    return write_wheel(wheel_directory, files, found is not None)


def build_editable(wheel_directory, config_settings=None, metadata_directory=None):
    return write_wheel(wheel_directory, {f"{NAME}.pth": f"{HERE / 'src'}\n".encode()}, False)


def build_sdist(sdist_directory, config_settings=None):
    name = f"{NAME}-{VERSION}"
    with tarfile.open(pathlib.Path(sdist_directory) / f"{name}.tar.gz", "w:gz") as sources:
        for it in ("pyproject.toml", "README.md", "build_wheels.py", "src", "tests"):
            sources.add(HERE / it, f"{name}/{it}", filter=lambda info: None if "__pycache__" in info.name else info)
    return f"{name}.tar.gz"
