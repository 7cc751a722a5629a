"""All that the scripts of this repository use of the inside of the toolchain's command `rt`, which promises none of it.

`rt` is loaded as a module. Used are `rtlib.crates_below`, `lock`, `guarded`, `KIT`, `RATTLE`, `PARTS` and `main`; and of a
crate `name`, `folder`, `rlib`, `below()`, `stamp()`, `words(..)`, `build_rlib(..)`, `front_end()` and `out`.
"""
import importlib.machinery
import importlib.util
import pathlib
import shutil
import subprocess
import sys

from repository import lines, root, stands_on

# The kits for which this is written, by a part of what `rt version` prints.
WRITTEN_FOR = "logic dac8208d650f15bf"


def toolchain():
    """The module of the command `rt`. Prints a warning on standard error if the kit is another one."""
    try:
        version = subprocess.run(["rt", "version"], capture_output=True, text=True, check=True).stdout.strip()
        page = subprocess.run(["rt", "doc"], capture_output=True, text=True, check=True).stdout.strip()
    except (OSError, subprocess.CalledProcessError):
        sys.exit("kit: the toolchain's command rt is not on PATH: README.md says where the kit comes from")
    if WRITTEN_FOR not in version:
        print(f"kit: the scripts are written for kits with {WRITTEN_FOR}; rt version prints {version}", file=sys.stderr)
    sys.dont_write_bytecode = True
    kit = pathlib.Path(page).parent
    loader = importlib.machinery.SourceFileLoader("rt", str(kit / "bin" / "rt"))
    made = importlib.util.module_from_spec(importlib.util.spec_from_loader("rt", loader))
    loader.exec_module(made)
    # its first call sets a signal's handler, which only this thread may
    made.rtlib.guarded()
    return made


def scratch_crate(folder, line, texts):
    """The toolchain's crate of this line of crates.txt, with these source files, in a new repository in the folder that has
    the libraries below it."""
    name, needed = line.split(": ")
    below, top = stands_on(*(it for it in needed.split() if it in lines())), pathlib.Path(folder)
    subprocess.run(["git", "init", "-q", "."], cwd=top, check=True)
    for it in below:
        shutil.copytree(root / "crates" / it, top / "crates" / it, ignore=shutil.ignore_patterns("out", "must-fail"))
    (top / "crates.txt").write_text("".join(f"{lines()[it]}\n" for it in below) + f"{line}\n")
    source = top / "crates" / name / "src"
    source.mkdir(parents=True)
    for module, text in texts.items():
        (source / f"{module}.rt").write_text(text)
    return {it.name: it for it in toolchain().rtlib.crates_below(folder)}[name]
