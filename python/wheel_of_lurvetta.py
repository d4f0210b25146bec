"""Builds the wheel of the package with the shared library in it, by the standard library alone.

The library is the one of the sources' folder `lib`, which ./build-c makes, or what LURVETTA_LIBRARY names.
"""
import base64
import hashlib
import os
import zipfile

NAME, VERSION = "lurvetta", "0.1.0"
HERE = os.path.dirname(os.path.realpath(__file__))
TAG = "py3-none-linux_x86_64"
METADATA = f"""Metadata-Version: 2.1
Name: {NAME}
Version: {VERSION}
Summary: A workbook whose formulas follow their sheets and names
License: MIT OR Apache-2.0
Requires-Python: >=3.9
"""
WHEEL = f"Wheel-Version: 1.0\nGenerator: {NAME}\nRoot-Is-Purelib: false\nTag: {TAG}\n"


def _library():
    path = os.environ.get("LURVETTA_LIBRARY") or f"{HERE}/../lib/liblurvetta.so"
    if not os.path.exists(path):
        raise FileNotFoundError(f"{path} isn't there: ./build-c makes it")
    with open(path, "rb") as it:
        return it.read()


def build_wheel(wheel_directory, config_settings=None, metadata_directory=None):
    files = {}
    for name in sorted(os.listdir(f"{HERE}/{NAME}")):
        if name.endswith(".py") or name == "py.typed":
            with open(f"{HERE}/{NAME}/{name}", "rb") as it:
                files[f"{NAME}/{name}"] = it.read()
    files[f"{NAME}/liblurvetta.so"] = _library()
    info = f"{NAME}-{VERSION}.dist-info"
    files[f"{info}/METADATA"] = METADATA.encode()
    files[f"{info}/WHEEL"] = WHEEL.encode()
    record = ""
    for name, data in files.items():
        digest = base64.urlsafe_b64encode(hashlib.sha256(data).digest()).rstrip(b"=").decode()
        record += f"{name},sha256={digest},{len(data)}\n"
    files[f"{info}/RECORD"] = (record + f"{info}/RECORD,,\n").encode()
    wheel = f"{NAME}-{VERSION}-{TAG}.whl"
    with zipfile.ZipFile(f"{wheel_directory}/{wheel}", "w", zipfile.ZIP_DEFLATED) as to:
        for name, data in files.items():
            to.writestr(name, data)
    return wheel


def build_sdist(sdist_directory, config_settings=None):
    raise NotImplementedError("the package is built from its repository")
