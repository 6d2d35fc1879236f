"""Builds programs and static libraries of this repository, or of a copy of it, without a proof: for planted faults, of which the prover refuses some.

The toolchain builds only what it has proved. But rt try compiles a program before any proof, without optimisation and with tests of each access to
memory. Here it does so with a folder of links to the toolchain, in which the compiler is a script: that keeps the program's module, and then fails, so
rt try does not go on. The module is compiled with optimisation, and linked as that of a proved program is. It still tests indexes and sums, which a proof
would show to be right, so it takes two to three times as many instructions as a proved program.
"""

import os
import re
import shutil
import subprocess
import sys
import tempfile
from pathlib import Path

sys.dont_write_bytecode = True
sys.path.insert(0, str(Path(__file__).resolve().parent.parent / "proof"))
import crates  # noqa: E402
import proving  # noqa: E402

# The compiler gets no variable of the environment, so the script has the names in it. Only the program's module is compiled with this word.
COMPILER = """#!/bin/sh
case "$*" in
*-fsanitize=address*) /bin/cp module.bc '{module}' && exit 1 ;;
esac
exec '{clang}' "$@"
"""
# A static library is compiled as a program whose main names each exported function. It is not for running.
MAIN = """
fn any<T>() -> T {{
    loop {{}}
}}

fn main(rt: std::rt::HostRuntime) {{
{calls}
}}
"""
EXPORTED = re.compile(r'pub extern "C" fn (\w+)\(([^)]*)\)')


def clang():
    return crates.kit() / "toolchain" / "bin" / "clang"


def kit_in(folder, module):
    """Makes a folder of links to the toolchain, whose compiler copies the module of a program to `module`."""
    kit = crates.kit()
    for part in kit.iterdir():
        if part.name not in ("bin", "toolchain"):
            (folder / part.name).symlink_to(part)
    (folder / "toolchain" / "bin").mkdir(parents=True)
    (folder / "toolchain" / "lib").symlink_to(kit / "toolchain" / "lib")
    for tool in (kit / "toolchain" / "bin").iterdir():
        if tool.name != "clang":
            (folder / "toolchain" / "bin" / tool.name).symlink_to(tool)
    compiler = folder / "toolchain" / "bin" / "clang"
    compiler.write_text(COMPILER.format(clang=clang(), module=module))
    compiler.chmod(0o755)
    (folder / "bin").mkdir()
    for tool in (kit / "bin").iterdir():
        # rt looks for the toolchain beside its own file, so this is a copy.
        if tool.name in ("rt", "rtlib.py"):
            shutil.copy(tool, folder / "bin")
        # rt try also has rattle look for reserved names, beside the compilation.
        elif tool.name == "rattle":
            (folder / "bin" / tool.name).symlink_to("/bin/true")
        else:
            (folder / "bin" / tool.name).symlink_to(tool)
    return folder / "bin" / "rt"


def keep_module(crate, room):
    """Keeps the module of the program in the folder `crate`, in a folder `room`. Returns it, and what the toolchain said."""
    module, kit = room / "module.bc", room / "kit"
    kit.mkdir()
    how = {"stdin": subprocess.DEVNULL, "stdout": subprocess.PIPE, "stderr": subprocess.STDOUT, "text": True, "errors": "replace"}
    return module, subprocess.run([kit_in(kit, module), "try"], cwd=crate, env={**os.environ, "TMPDIR": str(room)}, **how).stdout


def compile_module(module, to, *words):
    """Compiles a module to the file `to`."""
    words = ["--target=x86_64-unknown-linux-gnu", "-Wno-override-module", "-x", "ir", "-fPIC", *words]
    subprocess.run([clang(), *words, module, "-o", to], check=True)


def edited(module, room, edit):
    """A module whose text the function `edit` has changed, in a folder `room`."""
    text = room / "module.ll"
    compile_module(module, text, "-O0", "-S", "-emit-llvm")
    text.write_text(edit(text.read_text()))
    return text


def build(crate, to, edit=None):
    """Builds the program whose crate is in this folder, and writes it to `to`. If there is a function `edit`, it changes the text of the module. Returns
    what the toolchain said if it does not compile, or an empty text."""
    with tempfile.TemporaryDirectory(prefix="unproved-") as name:
        module, said = keep_module(crate, Path(name))
        if not module.is_file():
            return said
        to.parent.mkdir(parents=True, exist_ok=True)
        compile_module(edited(module, Path(name), edit) if edit else module, to, "-O1", "-c")
        proving.link(to)
    return ""


def make_program(folder, name):
    """Makes a program of a static library, in a copy of crates/ and crates.txt in this folder. Returns the exported functions."""
    listed, source = folder / "crates.txt", folder / "crates" / name / "src"
    listed.write_text(listed.read_text().replace(f"{name} staticlib:", f"{name}:"))
    calls, exported = [], []
    for file in sorted(source.glob("*.rt")):
        path = "" if file.stem == "lib" else f"{file.stem}::"
        for call, given in EXPORTED.findall(file.read_text()):
            words = ["rt.alloc()" if it.strip().startswith("alloc:") else "any()" for it in given.split(",") if it.strip()]
            calls.append(f"    let _ = {path}{call}({', '.join(words)});")
            exported.append(call)
    (source / "main.rt").write_text((source / "lib.rt").read_text() + MAIN.format(calls="\n".join(calls)))
    (source / "lib.rt").unlink()
    return exported


def export(text, exported):
    """Gives functions of a module, whose text this is, the names by which C calls them. Returns the text."""
    defined = re.finditer(r'^define internal (?:\w+ )*?(\S+) @"(\S+::(\w+))"\((.*?)\) #\d+ \{', text, re.M)
    made = []
    for it in (it for it in defined if it[3] in exported):
        kinds = ", ".join(given.split()[0] for given in it[4].split(", ") if given)
        made.append(f'@{it[3]} = alias {it[1]} ({kinds}), ptr @"{it[2]}"')
    return "\n".join([text, *made, ""])


def build_library(top, name, to):
    """Builds the static library of this name in the repository `top`, and writes it to `to` with what it needs of the toolchain. Returns what the toolchain
    said if it does not compile, or an empty text."""
    with tempfile.TemporaryDirectory(prefix="unproved-") as room:
        room = Path(room)
        copy, made = room / "copy", room / "engine.o"
        shutil.copytree(top / "crates", copy / "crates", ignore=shutil.ignore_patterns("out"))
        for it in ("crates.txt", "HANDLES"):
            shutil.copy(top / it, copy)
        exported = make_program(copy, name)
        module, said = keep_module(copy / "crates" / name, room)
        if not module.is_file():
            return said
        compile_module(edited(module, room, lambda text: export(text, exported)), made, "-O1", "-c")
        subprocess.run(["objcopy", "--localize-symbol=main", made], check=True)
        for it in ("libos_c.a", "liblibc_c.a"):
            subprocess.run(["ar", "x", crates.kit() / "c" / it], cwd=room, check=True)
        to.parent.mkdir(parents=True, exist_ok=True)
        subprocess.run(["ar", "rcs", to, *room.glob("*.o")], check=True)
    return ""
