"""The proved library's LLVM module, compiled for wasm32 by the toolchain's own clang and linked by wasm-ld. No C is added to it."""

from __future__ import annotations

import pathlib
import shutil
import subprocess

ROOT = pathlib.Path(__file__).resolve().parents[1]
EXPORTED = "rukvetta_accept", "rukvetta_nest", "__heap_base"
STACK_BYTES = 65536  # in front of all other memory, so that a stack that is too deep stops the call


class Missing(Exception):
    """A program is not there; its text is the sentence to print."""


class Failed(Exception):
    """A program did not do its work; its text is what it said."""


def program(name: str, package: str) -> str:
    found = shutil.which(name)
    if not found:
        raise Missing(f"no {name} on the path ({package})")
    return found


def needed() -> str:
    """The linker, if it and the toolchain are there."""
    program("rt", "the Rattle toolchain")
    return program("wasm-ld", "Debian's package lld")


def run(*command: str | pathlib.Path) -> str:
    """What a program prints, started in the repository."""
    done = subprocess.run(command, capture_output=True, text=True, cwd=ROOT)
    if done.returncode:
        raise Failed(f"{pathlib.Path(command[0]).name} failed: {(done.stderr or done.stdout).strip()[-2000:]}")
    return done.stdout.strip()


def compiled(work: pathlib.Path) -> bytes:
    """The library as a WebAssembly module, made in a folder."""
    linker = needed()
    compiled, linked = work / "compiled", work / "module.wasm"
    run(ROOT / "interface" / "module" / "keep", ROOT / "crates" / "c_interface", work)
    run(ROOT / "interface" / "module" / "compile", work / "module.bc", "wasm32", "O2", compiled)
    exports = [f"--export={name}" for name in EXPORTED]
    layout = "--no-entry", "--strip-all", "--gc-sections", "--stack-first", "-z", f"stack-size={STACK_BYTES}"
    run(linker, compiled.with_suffix(".o"), *layout, *exports, "-o", linked)
    return linked.read_bytes()
