"""What a packed program is made of, and the archive of it.

A pack is a dictionary of names and files in memory. tools/dist names them; here the program and the C library are
taken from the machine that packs, and an archive is written. The same files and the same date make the same bytes.
"""
import gzip
import hashlib
import io
import os
import re
import subprocess
import tarfile
from typing import NamedTuple

from common import TOP

PACKAGING = os.path.join(TOP, "packaging")
PLACE = re.compile(r"@[A-Z_]+@")
# The beginning of an ELF file for 64 bits, and its machine x86-64.
ELF_64, X86_64 = b"\x7fELF\x02\x01", b"\x3e\x00"


class File(NamedTuple):
    content: bytes
    mode: int = 0o644


class CannotPack(Exception):
    """Why nothing can be packed."""


def content_of(*path):
    with open(os.path.join(TOP, *path), "rb") as it:
        return it.read()


def filled(name, **values):
    """Returns a text of packaging/ with each @NAME@ in it replaced."""
    text = content_of(PACKAGING, name).decode()
    for key, value in values.items():
        text = text.replace(f"@{key.upper()}@", value)
    left = PLACE.search(text)
    if left:
        raise ValueError(f"{name}: nothing is known for {left[0]}")
    return text.encode()


def told(*words, **environment):
    """Returns what a program prints that has to be there and to succeed."""
    how = {"stdin": subprocess.DEVNULL, "stdout": subprocess.PIPE, "stderr": subprocess.PIPE, "encoding": "utf-8"}
    try:
        ran = subprocess.run(words, env={**os.environ, "LC_ALL": "C", **environment}, **how)
    except FileNotFoundError as why:
        raise CannotPack(f"{words[0]} has to be on the PATH") from why
    if ran.returncode:
        raise CannotPack(f"{' '.join(words)} ended with status {ran.returncode}: {ran.stderr.strip()}")
    return ran.stdout


def is_for_this_system(program):
    with open(program, "rb") as it:
        head = it.read(20)
    return head.startswith(ELF_64) and head[18:20] == X86_64


def stripped(program, room):
    """Returns the program without its symbols."""
    made = os.path.join(room, "stripped")
    told("strip", "-o", made, program)
    return content_of(made)


def libraries(program):
    """Returns the loader and the libraries that a program needs, by their names, from this machine."""
    found = {}
    for line in told("ldd", program).splitlines():
        place = re.match(r"\s*(?:\S+ => )?(/\S+) \(0x", line)
        if place:
            name = os.path.basename(line.split()[0])
            found[name] = File(content_of(place[1]), 0o755)
        elif not line.split()[0].startswith("linux-vdso"):
            raise CannotPack(f"ldd says of {program}: {line.strip()}")
    if "ld-linux-x86-64.so.2" not in found or "libc.so.6" not in found:
        raise CannotPack(f"{program} isn't linked with the C library as it should be: {sorted(found)}")
    return found


def library_copyright():
    """Returns the copyright of the C library, as the system that packs has it."""
    for place in ("/usr/share/doc/libc6/copyright", "/usr/share/licenses/glibc/LICENSES"):
        if os.path.isfile(place):
            return File(content_of(place))
    raise CannotPack("the copyright of the C library isn't there, which has to go along with it")


def least_library(program):
    """Returns the oldest version of the C library that has all that the program asks of it."""
    found = re.findall(r"Name: GLIBC_(\d+(?:\.\d+)*)", told("readelf", "-V", program))
    if not found:
        raise CannotPack(f"readelf says of {program} no version of the C library")
    return max(found, key=lambda it: [int(part) for part in it.split(".")])


def compressed(content):
    """Returns what gzip makes of bytes, with no name and no time in it. A higher level takes twice as long for nothing."""
    out = io.BytesIO()
    with gzip.GzipFile(filename="", mode="wb", compresslevel=6, fileobj=out, mtime=0) as it:
        it.write(content)
    return out.getvalue()


def sums(files):
    """Returns the lines of SHA256SUMS."""
    lines = [f"{hashlib.sha256(files[name].content).hexdigest()}  {name}\n" for name in sorted(files)]
    return "".join(lines).encode()


def archived(folder, files, date):
    """Returns a .tar.gz of files below a folder: sorted, of one date, and owned by nobody in particular."""
    out = io.BytesIO()
    with tarfile.open(fileobj=out, mode="w", format=tarfile.USTAR_FORMAT) as archive:
        folders = {os.path.dirname(name) for name in files} - {""}
        for name in sorted({"", *folders, *files}):
            entry = tarfile.TarInfo(f"{folder}/{name}".rstrip("/"))
            entry.mtime = date
            if name in files:
                entry.size, entry.mode = len(files[name].content), files[name].mode
                archive.addfile(entry, io.BytesIO(files[name].content))
            else:
                entry.type, entry.mode = tarfile.DIRTYPE, 0o755
                archive.addfile(entry)
    return compressed(out.getvalue())
