"""Lays out the crates' files by rt fmt, and names those that it changes.

rt fmt knows the crate of the current folder alone. With --check, a copy is laid out and the tree stays as it is.
"""

import concurrent.futures
import re
import shutil
import sys

import crates
import processes
import rooms

CHANGED = re.compile(r"^rt: formatted (.*)$", re.M)


def laid_out(folder):
    """Lays out the crate in the folder. Gives the files that changed, and what rt says where it can't."""
    status, told = processes.run(["rt", "fmt"], cwd=folder)
    return CHANGED.findall(told), told if status else ""


def changes(names, is_checked):
    """The files that aren't in the layout, by their paths in the tree, and what rt says where it can't read one."""
    files, faults = [], []
    with processes.scratch("fmt") as room, concurrent.futures.ThreadPoolExecutor() as pool:
        folders = {name: f"{crates.TOP}/crates/{name}" for name in names}
        if is_checked:
            for name, folder in folders.items():
                rooms.copy_sources(folder, f"{room}/{name}")
                folders[name] = f"{room}/{name}"
        for name, (changed, fault) in zip(folders, pool.map(laid_out, folders.values())):
            files += [f"crates/{name}/{it}" for it in changed]
            faults += [f"crates/{name}: {fault.strip()}"] * bool(fault)
    return files, faults


def main(is_checked=False):
    """Does it for all crates. The status is 1 where a check finds a file, or rt can't read one."""
    if not shutil.which("rt"):
        print("fmt: it takes the Rattle kit: rt isn't on PATH", file=sys.stderr)
        return 1
    files, faults = changes(crates.read(), is_checked)
    for it in files:
        print(f"fmt: {it} {'is not in the layout' if is_checked else 'is laid out anew'}")
    for it in faults:
        print(f"fmt: {it}")
    print(f"fmt: {len(files)} files {'to be laid out' if is_checked else 'changed'}, {len(faults)} crates that rt fmt can't read")
    return 1 if faults or is_checked and files else 0
