"""What dpkg does with the package of the program where another one is installed."""

import os
import re
import subprocess
import tempfile

# What an older package has that the new one has not.
GONE = "usr/share/doc/pezundrix/GONE"
TINYCDB = """Package: tinycdb
Version: 0.78
Architecture: amd64
Maintainer: it <it@it>
Description: another
"""


class Root:
    """A folder in which dpkg installs packages."""

    def __init__(self, folder):
        self.top = tempfile.mkdtemp(dir=folder)
        for it in ("info", "updates", "triggers"):
            os.makedirs(f"{self.top}/var/lib/dpkg/{it}")
        for it in ("status", "available"):
            with open(f"{self.top}/var/lib/dpkg/{it}", "w", encoding="ascii"):
                pass

    def dpkg(self, *words):
        """Whether dpkg does something."""
        words = ["dpkg", f"--root={self.top}", f"--log={os.devnull}", "--force-depends", *words]
        return subprocess.run(words, stdin=subprocess.DEVNULL, capture_output=True, check=False).returncode == 0

    def installed(self):
        """The packages that are installed, each with its version."""
        words = ["dpkg-query", f"--admindir={self.top}/var/lib/dpkg", "-W", "-f", "${Package} ${Version} ${Status}\n"]
        said = subprocess.run(words, stdout=subprocess.PIPE, text=True, check=True).stdout
        return re.findall(r"^(\S+ \S+) install ok installed$", said, re.M)

    def files(self):
        """The files below usr."""
        return {os.path.relpath(os.path.join(place, it), self.top) for place, _, names in os.walk(f"{self.top}/usr") for it in names}


def packed(tree, folder):
    """A package of what is in a folder."""
    made = os.path.join(tempfile.mkdtemp(dir=folder), "it.deb")
    subprocess.run(["dpkg-deb", "--root-owner-group", "-b", tree, made], stdout=subprocess.DEVNULL, check=True)
    return made


def older(package, folder):
    """The package as one of an older version, with a file of its own."""
    tree = tempfile.mkdtemp(dir=folder)
    subprocess.run(["dpkg-deb", "--raw-extract", package, tree], check=True)
    with open(f"{tree}/DEBIAN/control", "r+", encoding="utf-8") as file:
        text = re.sub(r"(?<=^Version: ).*", "1.2.0", file.read(), flags=re.M)
        file.seek(0)
        file.truncate()
        file.write(text)
    with open(f"{tree}/{GONE}", "w", encoding="ascii") as file:
        file.write("gone\n")
    return packed(tree, folder)


def tinycdb(folder):
    """A package of tinycdb's name, with its program."""
    tree = tempfile.mkdtemp(dir=folder)
    for name, text in {"DEBIAN/control": TINYCDB, "usr/bin/cdb": "another's", "usr/share/doc/tinycdb/copyright": "another's"}.items():
        os.makedirs(os.path.dirname(f"{tree}/{name}"), exist_ok=True)
        with open(f"{tree}/{name}", "w", encoding="ascii") as file:
            file.write(text)
    return packed(tree, folder)


def rows(package, version, folder):
    """What holds of an upgrade from an older version while its program runs, of tinycdb's package, and of a removal."""
    fresh, root = Root(folder), Root(folder)
    yield "it is installed", fresh.dpkg("-i", package) and fresh.installed() == [f"pezundrix {version}"]
    yield "it is installed over an older one", root.dpkg("-i", older(package, folder)) and root.installed() == ["pezundrix 1.2.0"] and GONE in root.files()
    made = os.path.join(folder, "running.cdb")
    with subprocess.Popen([f"{root.top}/usr/bin/cdb", "-c", made], stdin=subprocess.PIPE) as running:
        is_new = root.dpkg("-i", package) and root.installed() == [f"pezundrix {version}"]
        running.communicate(b"+1,1:a->b\n\n")
    yield "which is gone then", is_new and root.files() == fresh.files()
    yield "and whose program goes on", running.returncode == 0 and os.path.getsize(made) > 2048
    yield "the older one can come back", root.dpkg("-i", older(package, folder)) and root.installed() == ["pezundrix 1.2.0"]
    other, root = tinycdb(folder), Root(folder)
    yield "it takes the place of tinycdb", root.dpkg("-i", other) and root.dpkg("-i", package) and root.installed() == [f"pezundrix {version}"]
    yield "whose files are gone", root.files() == fresh.files()
    yield "tinycdb does not come back beside it", not root.dpkg("-i", other) and root.files() == fresh.files()
    yield "it is removed whole", root.dpkg("-P", "pezundrix") and not root.files()
    yield "then tinycdb comes back", root.dpkg("-i", other) and root.installed() == ["tinycdb 0.78"]
