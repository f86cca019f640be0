"""Builds the package (PEP 517) by the standard library alone, so that `pip install ./bindings/python` needs no network.

The wheel has the shared library in it that `make -C bindings/c` built, or the one that RACHONPAS_LIBRARY names, where it is there.
"""
import base64
import hashlib
import os
import re
import sys
import sysconfig
import tarfile
import zipfile

HERE = os.path.dirname(os.path.abspath(__file__))
LIBRARY = os.environ.get("RACHONPAS_LIBRARY", os.path.join(HERE, "..", "c", "out", "librachonpas.so"))
OWN = ["rachonpas/__init__.py", "rachonpas/py.typed"]


def _read(path):
    with open(path, "rb") as file:
        return file.read()


def _version():
    text = _read(os.path.join(HERE, OWN[0])).decode()
    return re.search(r'^__version__ = "(.*)"$', text, re.M)[1]


def _metadata():
    lines = ["Metadata-Version: 2.1", "Name: rachonpas", f"Version: {_version()}", "License: Apache-2.0", "Requires-Python: >=3.8",
             "Summary: Proved optimisations of texts of operations and of modules of MLIR", "Classifier: Typing :: Typed",
             "Classifier: Topic :: Software Development :: Compilers", "Description-Content-Type: text/markdown", ""]
    return ("\n".join(lines) + "\n").encode() + _read(os.path.join(HERE, "README.md"))


def _files():
    """What the wheel has, by names, and the platform that it is for."""
    files = {name: _read(os.path.join(HERE, name)) for name in OWN}
    if os.path.exists(LIBRARY):
        files["rachonpas/librachonpas.so"] = _read(LIBRARY)
        return files, re.sub(r"[-.]", "_", sysconfig.get_platform())
    print(f"rachonpas: no shared library at {LIBRARY}: the package looks for one when it is imported", file=sys.stderr)
    return files, "any"


def build_wheel(wheel_directory, config_settings=None, metadata_directory=None):
    """Writes the wheel into the folder, and answers its name."""
    files, platform = _files()
    name, folder = f"rachonpas-{_version()}-py3-none-{platform}.whl", f"rachonpas-{_version()}.dist-info"
    files[f"{folder}/METADATA"] = _metadata()
    files[f"{folder}/WHEEL"] = f"Wheel-Version: 1.0\nGenerator: backend.py\nRoot-Is-Purelib: {platform == 'any'}\nTag: py3-none-{platform}\n".encode()
    rows = []
    for path, data in files.items():
        told = base64.urlsafe_b64encode(hashlib.sha256(data).digest()).rstrip(b"=").decode()
        rows.append(f"{path},sha256={told},{len(data)}\n")
    files[f"{folder}/RECORD"] = "".join([*rows, f"{folder}/RECORD,,\n"]).encode()
    with zipfile.ZipFile(os.path.join(wheel_directory, name), "w", zipfile.ZIP_DEFLATED) as wheel:
        for path, data in files.items():
            wheel.writestr(zipfile.ZipInfo(path, (1980, 1, 1, 0, 0, 0)), data, zipfile.ZIP_DEFLATED)
    return name


def build_sdist(sdist_directory, config_settings=None):
    """Writes the sources into the folder, and answers their name."""
    name = f"rachonpas-{_version()}"
    with tarfile.open(os.path.join(sdist_directory, f"{name}.tar.gz"), "w:gz") as packed:
        for path in [*OWN, "README.md", "backend.py", "pyproject.toml"]:
            packed.add(os.path.join(HERE, path), f"{name}/{path}")
    return f"{name}.tar.gz"
