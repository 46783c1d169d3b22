"""The first file system of the machine: it mounts the tree, read-only, below a file system in memory, and goes there. All it has is of the tree."""

import os
import re
import stat
import subprocess

LOADER = "/lib64/ld-linux-x86-64.so.2"
PROGRAMS = ("/bin/dash", "/bin/kmod", "/bin/mkdir", "/bin/mount", "/sbin/switch_root")
MODULES = ("virtio_pci", "9pnet_virtio", "9p", "overlay")
FOLDERS = ("/dev", "/memory", "/proc", "/root", "/sys", "/tree")
# the folders that qemu shares, by these names
TREE_TAG, SHARED_TAG = "tree", "shared"
# where the machine sees the shared one, and what it runs there before systemd
SHARED_PLACE, FIRST = "/shared", "/shared/first"
INIT = """#!/bin/dash
mount -t proc proc /proc
mount -t sysfs sysfs /sys
mount -t devtmpfs devtmpfs /dev
{modules}
mount -t 9p -o ro,trans=virtio,version=9p2000.L,msize=262144,cache=loose {tree} /tree
mount -t tmpfs -o size=75% tmpfs /memory
mkdir /memory/upper /memory/work
mount -t overlay -o lowerdir=/tree,upperdir=/memory/upper,workdir=/memory/work overlay /root
mkdir -p /root{place}
mount -t 9p -o trans=virtio,version=9p2000.L,msize=262144 {shared} /root{place}
exec switch_root /root {first}
"""


def kernel_of(tree):
    """The version of the newest kernel in the tree's /boot, or None."""
    folder = os.path.join(tree, "boot")
    names = os.listdir(folder) if os.path.isdir(folder) else []
    versions = [name[len("vmlinuz-") :] for name in names if name.startswith("vmlinuz-")]
    return max(versions, key=lambda version: [int(number) for number in re.findall(r"\d+", version)], default=None)


def libraries_of(tree, program):
    """The libraries that a program of the tree loads, by their paths there."""
    words = [tree + LOADER, "--library-path", tree + "/lib/x86_64-linux-gnu", "--list", tree + program]
    listed = subprocess.run(words, stdout=subprocess.PIPE, text=True, check=True).stdout
    return [path[len(tree) :] if path.startswith(tree) else path for path in re.findall(r"(/\S+) \(0x", listed)]


def modules_of(tree, version):
    """The kernel's modules that are needed, by their paths in the tree, each after those that it needs."""
    base = f"/lib/modules/{version}/"
    with open(f"{tree}{base}modules.dep", encoding="ascii") as file:
        needs = dict(line.rstrip("\n").split(":", 1) for line in file)
    due = {}
    for name in MODULES:
        path = next((path for path in needs if os.path.basename(path).split(".")[0] == name), None)
        # one that is none is part of the kernel itself
        for each in reversed([path, *needs[path].split()] if path else []):
            due[base + each] = None
    return list(due)


def entry(name, mode, data, number):
    """One entry of an archive of cpio, in the form newc."""
    name = name.lstrip("/").encode() + b"\0"
    fields = (number, mode, 0, 0, 1, 0, len(data), 0, 0, 0, 0, len(name), 0)
    head = b"070701" + b"".join(b"%08X" % field for field in fields) + name
    return padded(head) + padded(data)


def padded(data):
    return data + b"\0" * (-len(data) % 4)


def folders_of(paths):
    """Each folder that these paths lie in, after the one that it lies in itself."""
    due = {}
    for path in paths:
        parts = path.split("/")[1:-1]
        for count in range(len(parts)):
            due["/" + "/".join(parts[: count + 1])] = None
    return list(due)


def write(tree, version, place):
    """Writes the archive for the kernel of this version to a file."""
    modules = modules_of(tree, version)
    files = dict.fromkeys(modules)
    for program in PROGRAMS:
        files.update(dict.fromkeys([program, *libraries_of(tree, program)]))
    inserted = "\n".join(f"/bin/insmod {path}" for path in modules)
    init = INIT.format(modules=inserted, tree=TREE_TAG, shared=SHARED_TAG, place=SHARED_PLACE, first=FIRST)
    entries = [(path, stat.S_IFDIR | 0o755, b"") for path in dict.fromkeys([*FOLDERS, *folders_of(files)])]
    for path in files:
        with open(tree + path, "rb") as file:
            entries.append((path, stat.S_IFREG | 0o755, file.read()))
    entries += [("/bin/insmod", stat.S_IFLNK | 0o777, b"kmod"), ("/init", stat.S_IFREG | 0o755, init.encode()), ("TRAILER!!!", 0, b"")]
    with open(place, "wb") as file:
        for number, (name, mode, data) in enumerate(entries, 1):
            file.write(entry(name, mode, data, number))
