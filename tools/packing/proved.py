#!/usr/bin/env python3
"""Builds what is proved in a crate for another machine, by the kit, over the proved libraries below
the crate (their out/rlib): a program's object file, or the archive of a static library.

The kit proves the crate itself once more, unless its out/incremental has the proofs. OUT.made says
what OUT was made of, and the logic; if nothing has changed, nothing is built. With --module, the
LLVM module is written in place of the object: clang can compile it for machines that the kit does
not have.
"""
import argparse
import hashlib
import os
import re
import shutil
import subprocess
import sys
import tempfile

TOP = os.path.dirname(os.path.dirname(os.path.dirname(os.path.abspath(__file__))))
# A compiler that keeps a copy of the module. It does not optimize, since nobody wants its object.
KEEPS = """#!/usr/bin/env bash
words=()
for word; do
  case $word in
    module.bc) cp module.bc "{module}" ;;
    -O3) word=-O0 ;;
  esac
  words+=("$word")
done
exec "{clang}" "${{words[@]}}"
"""
LOGIC = re.compile(r"^logic=proved .*\bsum=(\w+)", re.M)


def kit():
    """The folder of the kit, or None if there is none."""
    found = shutil.which("rt")
    return found and os.path.dirname(os.path.dirname(os.path.realpath(found)))


def row_of(crate):
    """Whether a crate is a static library, and the crates below it."""
    with open(f"{TOP}/crates.txt", encoding="utf-8") as rows:
        for row in rows:
            head, _, below = row.partition(":")
            if head.split()[:1] == [crate]:
                return "staticlib" in head.split(), below.split()
    sys.exit(f"proved.py: crates.txt has no crate {crate}")


def own_below(crate):
    """A crate and all of this repository that it is built on, in order."""
    found, left = set(), [crate]
    while left:
        name = left.pop()
        if name not in found and os.path.isdir(f"{TOP}/crates/{name}"):
            found.add(name)
            left += row_of(name)[1]
    return sorted(found)


def rlib_of(name):
    """The proved library of a crate, of the kit or of this repository."""
    for path in (f"{kit()}/rlibs/{name}.rlib", f"{TOP}/crates/{name}/out/rlib/{name}.rlib"):
        if os.path.exists(path):
            return path
    sys.exit(f"proved.py: crates/{name} is not proved: run ./test, or (cd crates/{name} && rt lib)")


def words_for(crate, target, out):
    """The command line of the kit's compiler, but for its toolchain."""
    is_library, below = row_of(crate)
    words = [f"{kit()}/bin/rattle", "build", "--crate-name", crate, "--jobs", "1"]
    words += ["--crate-type", "staticlib", "src/lib.rt"] if is_library else ["src/main.rt"]
    words += ["--links", f"{crate}=", "-L", f"dependency={kit()}/rlibs"]
    for name in ["std", *below]:
        words += ["--extern", f"{name}={rlib_of(name)}"]
    for name in sorted(os.listdir(f"{TOP}/crates")):
        words += ["-L", f"dependency={TOP}/crates/{name}/out/rlib"]
    words += ["--antt-project", f"{kit()}/rattle/logic/antt-project.json"]
    words += ["--logic-built", f"{kit()}/logic_built", "--backend", "llvm", "--target", target]
    return [*words, "-o", os.path.abspath(out)]


def toolchain(folder, module):
    """The kit's toolchain, but for its compiler, which keeps the module."""
    tools = f"{kit()}/toolchain"
    os.makedirs(f"{folder}/bin")
    os.symlink(f"{tools}/lib", f"{folder}/lib")
    for name in set(os.listdir(f"{tools}/bin")) - {"clang"}:
        os.symlink(f"{tools}/bin/{name}", f"{folder}/bin/{name}")
    with open(f"{folder}/bin/clang", "w", encoding="utf-8") as script:
        script.write(KEEPS.format(module=module, clang=f"{tools}/bin/clang"))
    os.chmod(f"{folder}/bin/clang", 0o755)
    return folder


def files_below(folder):
    for path, folders, names in os.walk(folder):
        folders.sort()
        yield from (f"{path}/{name}" for name in sorted(names))


def sum_of(crate, *more):
    """A checksum of what a crate is made of, and of more files."""
    paths = [f"{kit()}/KIT-ID", *more]
    for name in own_below(crate):
        paths += files_below(f"{TOP}/crates/{name}/src")
        paths += files_below(f"{TOP}/crates/{name}/specs")
    whole = hashlib.sha256()
    for path in paths:
        with open(path, "rb") as file:
            whole.update(hashlib.sha256(file.read()).digest())
    return whole.hexdigest()


def made_of(out):
    """What a file was made of, and the logic; nothing if it is not there."""
    if not os.path.exists(out) or not os.path.exists(f"{out}.made"):
        return [None, None]
    with open(f"{out}.made", encoding="utf-8") as file:
        return file.read().split()


def note(out, wanted, logic):
    with open(f"{out}.made", "w", encoding="utf-8") as file:
        file.write(f"{wanted} {logic}\n")


def is_kept(crate, out):
    """Whether a build proves nothing that an earlier one has proved."""
    kept = os.path.exists(f"{TOP}/crates/{crate}/out/incremental")
    return kept or made_of(out)[0] == sum_of(crate)


def build(crate, target, out, is_module=False):
    """Builds a crate for a target, unless that is there; returns the logic that has proved it."""
    out = os.path.abspath(out)
    os.makedirs(os.path.dirname(out), exist_ok=True)
    wanted = sum_of(crate)
    made, logic = made_of(out)
    if made == wanted:
        return logic
    folder = f"{TOP}/crates/{crate}"
    with tempfile.TemporaryDirectory() as room:
        words = words_for(crate, target, f"{room}/object" if is_module else out)
        if os.path.exists(f"{folder}/out/incremental"):
            kept = shutil.copytree(f"{folder}/out/incremental", f"{room}/incremental")
            words += ["--incremental", kept]
        tools = toolchain(f"{room}/tools", out) if is_module else f"{kit()}/toolchain"
        how = {"cwd": folder, "text": True, "stdout": subprocess.PIPE, "stderr": subprocess.STDOUT}
        ran = subprocess.run([*words, "--toolchain", tools], check=False, **how)
    logic = LOGIC.search(ran.stdout)
    if ran.returncode != 0 or not logic:
        sys.exit(f"proved.py: the kit did not prove and build {crate}:\n{ran.stdout[-2000:]}")
    note(out, wanted, logic[1])
    return logic[1]


def main():
    parser = argparse.ArgumentParser(description=__doc__)
    parser.add_argument("crate")
    parser.add_argument("target", help="as aarch64-unknown-linux-gnu")
    parser.add_argument("out")
    parser.add_argument("--module", action="store_true", help="write the LLVM module")
    words = parser.parse_args()
    if not kit():
        sys.exit("proved.py: there is no kit: rt is not on the PATH")
    logic = build(words.crate, words.target, words.out, words.module)
    print(f"{words.out}: proved by the logic {logic}")


if __name__ == "__main__":
    main()
