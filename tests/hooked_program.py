"""What tests/turns and tests/held share: crates/test_words, compiled again from what the toolchain makes of it for clang, with calls of C."""
import os
import re
import shutil
import subprocess
import sys
from pathlib import Path

from judged_runs import TOP

# In the place of clang: it keeps the module that it is to compile, and compiles none but the first, by which the toolchain tries it.
KEEPS = """#!/bin/sh
if [ ! -e "{folder}/first" ]; then : >"{folder}/first"; exec "{clang}" "$@"; fi
cp module.bc "{folder}/module.bc"
exit 1
"""
FLAGS = ["--target=x86_64-unknown-linux-gnu", "--no-default-config"]
ACCESS = re.compile(r"\s+(%\S+ = )?(load atomic|store atomic|cmpxchg|atomicrmw) ")
LABEL = re.compile(r"\S+:")
FUNCTION = re.compile(r'define .*?@"([^"]+?)(::<[^"]*)?"\(')


def kept_module(kit, folder):
    """Returns the module that the toolchain makes of the program for clang."""
    copy, clang = folder / "kit", kit / "toolchain/bin/clang"
    # `rt` goes by where it stands, so it is copied; all else but clang is what links lead to.
    copied = [kit / "bin/rt", kit / "bin/rtlib.py"]
    for at in (kit, kit / "bin", kit / "toolchain", kit / "toolchain/bin"):
        (copy / at.relative_to(kit)).mkdir()
        for it in {*at.iterdir()} - {kit / "bin", kit / "toolchain", kit / "toolchain/bin", clang, *copied}:
            (copy / it.relative_to(kit)).symlink_to(it)
    for it in copied:
        shutil.copy(it, copy / it.relative_to(kit))
    keeps = copy / clang.relative_to(kit)
    keeps.write_text(KEEPS.format(folder=folder, clang=clang))
    keeps.chmod(0o755)
    told = subprocess.run([copy / "bin/rt", "try"], cwd=TOP / "crates/test_words", stdin=subprocess.DEVNULL, capture_output=True, text=True)
    module = folder / "module.bc"
    if not module.exists():
        sys.exit(f"{sys.argv[0]}: there is no module: {told.stdout}{told.stderr}")
    return module


def with_hooks(text, access, around):
    """Returns a module's text with the instruction `access` before each atomic access, and how many there are. `around` has, by the name of
    a function, an instruction for its begin and one for each return."""
    lines, count, found, hooks, begins = [], 0, set(), None, False
    for line in text.splitlines():
        if line.startswith("define "):
            function = FUNCTION.match(line)
            hooks = around.get(function[1]) if function else None
            begins = hooks is not None
            found.update([function[1]] if hooks else [])
        elif begins and not LABEL.match(line):
            lines.append(f"  {hooks[0]}")
            begins = False
        if ACCESS.match(line):
            lines.append(f"  {access}")
            count += 1
        if hooks and line.startswith("  ret "):
            lines.append(f"  {hooks[1]}")
        lines.append(line)
    if count < 5 or found != set(around):
        sys.exit(f"{sys.argv[0]}: the module has {count} atomic accesses, and lacks {sorted(set(around) - found)}")
    return "\n".join([*lines, ""])


def built(folder, source, access, around, declared, wrapped):
    """Builds the program with these hooks, which are declared in these lines and stand in a file in C, and with functions of that in the place
    of some of the C library. Returns it."""
    kit = Path(subprocess.run(["rt", "doc"], capture_output=True, text=True, check=True).stdout.strip()).parent
    module, clang = kept_module(kit, folder), kit / "toolchain/bin/clang"
    plain, hooked, compiled = (folder / name for name in ("plain.ll", "hooked.ll", "hooked.o"))
    subprocess.run([clang, *FLAGS, "-S", "-emit-llvm", "-Xclang", "-disable-llvm-passes", "-x", "ir", module, "-o", plain], check=True)
    hooked.write_text(with_hooks(plain.read_text(), access, around) + "\n".join([*declared, ""]))
    subprocess.run([clang, *FLAGS, "-fPIE", "-O1", "-c", "-x", "ir", hooked, "-o", compiled], check=True)
    program, wraps = folder / "program", [f"-Wl,--wrap={name}" for name in wrapped]
    libraries = [kit / "c/libos_c.a", kit / "c/liblibc_c.a"]
    words = [os.environ.get("CC", "cc"), "-O2", "-pie", compiled, source, *wraps, *libraries, "-lpthread", "-o", program]
    subprocess.run(words, check=True)
    return program
