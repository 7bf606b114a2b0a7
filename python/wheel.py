"""Makes the wheel of the package fdbrec (a build backend by PEP 517), so that `pip install .` needs nothing but pip: no
network, and no setuptools."""

import base64
import hashlib
import os
import re
import zipfile

ABOUT = "Metadata-Version: 2.1\nName: fdbrec\nVersion: {}\nRequires-Python: >=3.9\nLicense: Apache-2.0\n"
WHEEL = "Wheel-Version: 1.0\nGenerator: fdbrec\nRoot-Is-Purelib: true\nTag: py3-none-any\n"
PACKED = (".py", ".js", ".html", ".css", ".json")


def build_wheel(wheel_directory, config_settings=None, metadata_directory=None):
    """Writes the wheel, and gives its name."""
    return written(wheel_directory, packed())


def build_editable(wheel_directory, config_settings=None, metadata_directory=None):
    """The same of a wheel that only names this folder, for `pip install --editable`."""
    here = os.path.dirname(os.path.realpath(__file__))
    return written(wheel_directory, {"fdbrec.pth": f"{here}\n".encode()})


def packed():
    """The files of the package, by their paths."""
    found = {}
    for folder, _, names in sorted(os.walk("fdbrec")):
        for name in sorted(names):
            if name.endswith(PACKED):
                with open(f"{folder}/{name}", "rb") as it:
                    found[f"{folder}/{name}".replace(os.sep, "/")] = it.read()
    return found


def version():
    with open("fdbrec/__init__.py", encoding="utf-8") as it:
        return re.search(r'^__version__ = "(.*)"$', it.read(), re.M)[1]


def written(folder, files):
    info = f"fdbrec-{version()}.dist-info"
    files[f"{info}/METADATA"], files[f"{info}/WHEEL"] = ABOUT.format(version()).encode(), WHEEL.encode()
    lines = [f"{name},sha256={digest(data)},{len(data)}" for name, data in files.items()]
    files[f"{info}/RECORD"] = "\n".join([*lines, f"{info}/RECORD,,", ""]).encode()
    name = f"fdbrec-{version()}-py3-none-any.whl"
    with zipfile.ZipFile(f"{folder}/{name}", "w", zipfile.ZIP_DEFLATED) as wheel:
        for path, data in files.items():
            wheel.writestr(path, data)
    return name


def digest(data):
    return base64.urlsafe_b64encode(hashlib.sha256(data).digest()).rstrip(b"=").decode()
