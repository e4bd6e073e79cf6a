#!/usr/bin/env python3
"""Makes a wheel of ctrie.py with the shared object that `./build ctrie_c` made: `python/make_wheel.py FOLDER` writes it there, and `pip
install ./python` calls it, as pyproject.toml says (PEP 517). It needs no package.

The tag manylinux2014_x86_64 says that it runs on each Linux for x86-64 with glibc 2.17 or later. So a shared object that wants a
later one is refused.
"""
import base64
import hashlib
import os
import re
import sys
import zipfile

HERE = os.path.dirname(os.path.realpath(__file__))
NAME, TAG, NEWEST_GLIBC = "tilvorg_ctrie", "py3-none-manylinux2014_x86_64", (2, 17)
SUMMARY = "A map from 64-bit numbers to 64-bit numbers with snapshots, proved"


def read(file):
    with open(file, "rb") as opened:
        return opened.read()


def library():
    """Returns the shared object."""
    file = os.environ.get("CTRIE_LIBRARY") or f"{HERE}/../out/c/lib/libctrie.so"
    if not os.path.isfile(file):
        raise SystemExit(f"make_wheel: {file} isn't there; ./build ctrie_c makes it")
    found = read(file)
    wanted = max((tuple(map(int, it.split(b"."))) for it in re.findall(rb"\0GLIBC_(\d+(?:\.\d+)+)(?=\0)", found)), default=(0,))
    if wanted[:2] > NEWEST_GLIBC:
        raise SystemExit(f"make_wheel: {file} wants glibc {'.'.join(map(str, wanted))}, and the tag {TAG} has {'.'.join(map(str, NEWEST_GLIBC))}")
    return found


def module():
    """Returns the module, and its version."""
    found = read(f"{HERE}/ctrie.py")
    return found, re.search(rb'^__version__ = "(.*)"$', found, re.MULTILINE)[1].decode()


def recorded(name, content):
    digest = base64.urlsafe_b64encode(hashlib.sha256(content).digest()).rstrip(b"=").decode()
    return f"{name},sha256={digest},{len(content)}\n"


def build_wheel(folder, config_settings=None, metadata_directory=None):
    """Writes the wheel into this folder, and returns its name. What is written goes by what is packed alone."""
    source, version = module()
    about = f"{NAME}-{version}.dist-info"
    files = {
        "ctrie.py": source,
        "libctrie.so": library(),
        f"{about}/METADATA": f"Metadata-Version: 2.1\nName: {NAME.replace('_', '-')}\nVersion: {version}\nSummary: {SUMMARY}\n"
        "Requires-Python: >=3.9\n".encode(),
        f"{about}/WHEEL": f"Wheel-Version: 1.0\nGenerator: make_wheel.py\nRoot-Is-Purelib: false\nTag: {TAG}\n".encode(),
    }
    record = f"{about}/RECORD"
    files[record] = ("".join(recorded(*it) for it in files.items()) + f"{record},,\n").encode()
    name = f"{NAME}-{version}-{TAG}.whl"
    with zipfile.ZipFile(os.path.join(folder, name), "w", zipfile.ZIP_DEFLATED) as wheel:
        for file, content in files.items():
            entry = zipfile.ZipInfo(file)
            entry.external_attr, entry.compress_type = 0o100644 << 16, zipfile.ZIP_DEFLATED
            wheel.writestr(entry, content)
    return name


class UnsupportedOperation(Exception):
    """The name is PEP 517's."""


def build_sdist(folder, config_settings=None):
    raise UnsupportedOperation("the library is built by ./build ctrie_c, from the whole repository")


if __name__ == "__main__":
    if len(sys.argv) != 2:
        sys.exit("make_wheel: python/make_wheel.py FOLDER")
    print(os.path.join(sys.argv[1], build_wheel(sys.argv[1])))
