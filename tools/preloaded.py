"""The libraries of `cases/` that are loaded before a program (LD_PRELOAD)."""
import pathlib
import subprocess

from tools.folders import CASES


def built(name: str, room: pathlib.Path) -> str:
    """The library of cases/NAME.c, made in the room with the compiler that `rt` has."""
    page = subprocess.run(["rt", "doc"], stdout=subprocess.PIPE, text=True, check=True).stdout.rstrip("\n")
    tools = pathlib.Path(page).parent / "toolchain" / "bin"
    library = room / f"{name}.so"
    words = ["-O2", "-fPIC", "-shared", "-nostdlib", f"-fuse-ld={tools / 'ld.lld'}", "-o", str(library), str(CASES / f"{name}.c")]
    subprocess.run([str(tools / "clang"), *words], check=True)
    return str(library)
