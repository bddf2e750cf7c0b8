"""The package of Debian: its files as a tree, its scripts, and what dpkg-deb makes of both."""
import os

import manual
from packing import File, compressed, content_of, filled, told

NAME = "observer"
DOCUMENTS = f"usr/share/doc/{NAME}"
CONFFILE = f"etc/default/{NAME}"
SCRIPTS = ("postinst", "prerm", "postrm")


def installed(program, proof, documents, date):
    """Returns the files that the package installs, by their places."""
    files = {
        f"usr/bin/{NAME}": File(program, 0o755),
        f"usr/lib/systemd/system/{NAME}.service": File(content_of("packaging", "observer.service")),
        CONFFILE: File(content_of("packaging", "observer.default")),
        f"usr/share/man/man8/{NAME}.8.gz": File(compressed(manual.man_page(date, "/" + DOCUMENTS))),
        f"usr/share/bash-completion/completions/{NAME}": File(manual.completion()),
        f"{DOCUMENTS}/copyright": File(content_of("packaging", "debian", "copyright")),
        f"{DOCUMENTS}/changelog.gz": File(compressed(content_of("CHANGELOG.md"))),
        f"{DOCUMENTS}/PROVED": proof,
    }
    files.update({f"{DOCUMENTS}/{name}": it for name, it in documents.items()})
    return files


def written(root, files, date):
    """Writes files below a folder, all of one date."""
    for name, file in files.items():
        place = os.path.join(root, name)
        os.makedirs(os.path.dirname(place), exist_ok=True)
        with open(place, "wb") as it:
            it.write(file.content)
        os.chmod(place, file.mode)
    for at, folders, names in os.walk(root, topdown=False):
        for name in names:
            os.utime(os.path.join(at, name), (date, date))
        os.chmod(at, 0o755)
        os.utime(at, (date, date))


def package(program, proof, documents, values, date, room):
    """Returns the bytes of the package. dpkg-deb compresses by one thread, so that they don't depend on the machine."""
    files = installed(program, proof, documents, date)
    kib = sum(-(-len(it.content) // 1024) for it in files.values())
    files["DEBIAN/control"] = File(filled("debian/control", kib=str(kib), **values))
    files["DEBIAN/conffiles"] = File(f"/{CONFFILE}\n".encode())
    files.update({f"DEBIAN/{it}": File(content_of("packaging", "debian", it), 0o755) for it in SCRIPTS})
    root, made = os.path.join(room, "root"), os.path.join(room, "made.deb")
    written(root, files, date)
    how = {"SOURCE_DATE_EPOCH": str(date), "DPKG_DEB_THREADS_MAX": "1"}
    told("dpkg-deb", "--root-owner-group", "-Zxz", "--build", root, made, **how)
    return content_of(made)
