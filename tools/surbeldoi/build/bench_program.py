"""A program of a benchmark over the crates of a checkout, compiled without any proof in a folder of its own.

Its main file has an ending of its own, since the gate allows a source of Rattle only in a crate. The crates that it uses
are copied without what proves them.
"""

import glob
import os
import shutil
import subprocess
import time

from . import compiling, small_program

# What the kit's compiler is asked for.
OPTIONS = "-O3", "-march=x86-64-v2", "-ffunction-sections", "-fdata-sections", "-fPIE", "--no-default-config"
LOOKS_EACH = 0.5


def make(folder, top, main):
    """Makes the crate of a program whose main file is `main`, an absolute path or one from the checkout, and copies the crates that it uses; answers its folder."""
    source, name = small_program.contents(top, main), os.path.splitext(os.path.basename(main))[0]
    lines = small_program.listed_crates(small_program.contents(top, "crates.txt"))
    uses = sorted(small_program.used_in([source]) & set(lines))
    needed = small_program.below(uses, top, lines)
    for crate in needed:
        copied = shutil.copytree(os.path.join(top, "crates", crate, "src"), os.path.join(folder, "crates", crate, "src"))
        for path in glob.glob(os.path.join(copied, "**", "*.rt"), recursive=True):
            small_program.write(path, small_program.without_contracts(small_program.contents(path)))
    own = os.path.join(folder, "crates", name)
    os.makedirs(os.path.join(own, "src"))
    small_program.write(os.path.join(own, "src", "main.rt"), source)
    listed = [f"{lines[crate][0]}: {' '.join(used for used in lines[crate][1] if used in needed or used not in lines)}" for crate in sorted(needed)]
    small_program.write(os.path.join(folder, "crates.txt"), "\n".join([*listed, f"{name}: {' '.join(uses)}"]) + "\n")
    shutil.copy(os.path.join(top, "HANDLES"), folder)
    return own


def grown(folder, before, kept):
    """Copies a module below a folder that has not grown since the last look, and answers the size of each."""
    sizes = {path: compiling.size_of(path) for path in glob.glob(os.path.join(glob.escape(folder), compiling.MADE, compiling.MODULE))}
    for path, size in sizes.items():
        if 0 < size == before.get(path):
            try:
                shutil.copy(path, kept)
            except FileNotFoundError:
                pass
    return sizes


def module_of(crate, folder):
    """The module that `rt try` compiles of a crate, copied once it has stopped to grow."""
    kept, sizes = os.path.join(folder, "module.bc"), {}
    with subprocess.Popen(["rt", "try"], cwd=crate, env={**os.environ, "TMPDIR": folder}, stdin=subprocess.DEVNULL, stdout=subprocess.DEVNULL,
                          stderr=subprocess.DEVNULL) as trying:
        while trying.poll() is None:
            sizes = grown(folder, sizes, kept)
            time.sleep(LOOKS_EACH)
    return kept


def build(folder, top, main):
    """The program of a main file over the crates of a checkout, compiled by the kit in a folder; answers its path."""
    own, kit = make(folder, top, main), compiling.kit()
    module, program = module_of(own, folder), os.path.join(folder, os.path.basename(own))
    if not os.path.exists(module):
        raise SystemExit(f"{main}: `rt try` compiles nothing in {own}")
    tools, library = os.path.join(kit, "toolchain"), os.path.join(kit, "toolchain", "lib")
    begins, needed, ends = ([os.path.join(library, name) for name in names] for names in (compiling.BEGINS, compiling.LIBRARIES, compiling.ENDS))
    subprocess.run([os.path.join(tools, "bin", "clang"), "--target=x86_64-unknown-linux-gnu", *OPTIONS, "-c", "-x", "ir", module, "-o", module + ".o"], check=True)
    subprocess.run([os.path.join(tools, "bin", "ld.lld"), "-pie", "--gc-sections", "--dynamic-linker", compiling.LOADER, "-o", program, *begins, module + ".o",
                    *(os.path.join(kit, name) for name in compiling.RUNTIME), *needed, *ends], check=True)
    return program
