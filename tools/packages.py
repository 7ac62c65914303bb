"""How tools/release writes what it packs: a tree of files as an archive or as a Debian package, the same bytes each time.

A tree is a dictionary from the name of a file to its bytes; what stands in a folder bin may be run. Every file is root's and has the time of the commit.
"""
import gzip
import hashlib
import io
import os
import subprocess
import tarfile
import tempfile

RUN, READ = 0o755, 0o644


def mode_of(name):
    return RUN if "bin" in name.split("/") else READ


def folders_of(tree):
    """Every folder that a file of the tree stands in."""
    folders = set()
    for name in tree:
        while name := os.path.dirname(name):
            folders.add(name)
    return sorted(folders)


def zipped(data):
    """Compressed without a name and a time, which would differ from run to run."""
    out = io.BytesIO()
    with gzip.GzipFile(filename="", mode="wb", fileobj=out, compresslevel=9, mtime=0) as file:
        file.write(data)
    return out.getvalue()


def sums_of(tree):
    """As sha256sum prints them and takes them with -c."""
    return "".join(f"{hashlib.sha256(data).hexdigest()}  {name}\n" for name, data in sorted(tree.items())).encode()


def archive_of(tree, top, epoch):
    """The tree below one folder, as a .tar.gz."""
    out = io.BytesIO()
    with tarfile.open(fileobj=out, mode="w", format=tarfile.USTAR_FORMAT) as tar:
        for name in sorted(["", *folders_of(tree), *tree]):
            entry = tarfile.TarInfo(f"{top}/{name}".rstrip("/"))
            entry.mtime, entry.uname, entry.gname = epoch, "root", "root"
            if name in tree:
                entry.size, entry.mode = len(tree[name]), mode_of(name)
                tar.addfile(entry, io.BytesIO(tree[name]))
            else:
                entry.type, entry.mode = tarfile.DIRTYPE, RUN
                tar.addfile(entry)
    return zipped(out.getvalue())


def write_tree(folder, tree):
    """The tree as files. No mask of the caller's takes away a right."""
    os.makedirs(folder, exist_ok=True)
    for name in ["", *folders_of(tree)]:
        os.makedirs(f"{folder}/{name}", exist_ok=True)
        os.chmod(f"{folder}/{name}", RUN)
    for name, data in tree.items():
        with open(f"{folder}/{name}", "wb") as file:
            file.write(data)
        os.chmod(f"{folder}/{name}", mode_of(name))


def package_of(tree, control, epoch):
    """The tree below /usr, as a .deb. dpkg-deb takes the time from SOURCE_DATE_EPOCH, and gzip gives the same on every count of processors."""
    md5 = "".join(f"{hashlib.md5(data).hexdigest()}  usr/{name}\n" for name, data in sorted(tree.items()))
    whole = {f"usr/{name}": data for name, data in tree.items()}
    with tempfile.TemporaryDirectory() as folder:
        stage, made = f"{folder}/stage", f"{folder}/made.deb"
        write_tree(stage, {**whole, "DEBIAN/control": control, "DEBIAN/md5sums": md5.encode()})
        subprocess.run(["dpkg-deb", "--root-owner-group", "-Zgzip", "-z9", "--build", stage, made], check=True, capture_output=True,
                       env={**os.environ, "SOURCE_DATE_EPOCH": str(epoch), "LC_ALL": "C"})
        with open(made, "rb") as file:
            return file.read()
