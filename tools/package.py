#!/usr/bin/env python3
"""Makes the source tarball and the Debian packages.

    tools/package.py dist FOLDER            the commit that is checked out, as a tarball
    tools/package.py deb PROGRAM FOLDER     a program that was built, with its pages, as a package
    tools/package.py clib LIBRARIES FOLDER  libcdb.so.1 and libcdb.a of a folder, as two packages:
                                            the shared library, and what programs are built with
    tools/package.py source TARBALL FOLDER  the tarball of a release's objects with packaging/debian, as
                                            the source package of these three

Each prints the SHA-256 of the files that it made. The same commit, and the same program, libraries
and pages, give the same bytes: every date is that of the version in CHANGELOG.md, or of the commit,
and every file belongs to root. A package needs the commands `dpkg-deb` and `strip`, that of the sources `dpkg-source`. If the environment has
HOMEPAGE, VCS_GIT or MAINTAINER, as who publishes the packages sets them, each package has that field.
"""

import datetime
import gzip
import hashlib
import os
import re
import shutil
import subprocess
import sys
import tempfile

TOP = os.path.join(os.path.dirname(os.path.abspath(__file__)), "..")
NAME = "pezundrix"
# What a distribution builds the packages of, beside the tarball of a release.
DEBIAN = "packaging/debian"
# The fields that only who publishes the packages knows, and the variables of the environment that give them.
PUBLISHED = {"Homepage": "HOMEPAGE", "Vcs-Git": "VCS_GIT"}
PAGES = ("cdb.1", "cdb.5")

# The fields of a package, in order. packaging/debian/control has those that are the same in each version.
ORDER = (
    *("Package", "Source", "Version", "Architecture", "Multi-Arch", "Maintainer", *PUBLISHED, "Installed-Size", "Depends"),
    *("Provides", "Conflicts", "Replaces", "Section", "Priority", "Description"),
)

COPYRIGHT = """\
Format: https://www.debian.org/doc/packaging-manuals/copyright-format/1.0/
Upstream-Name: {name}

Files: *
Copyright: 2026 the Pezundrix developers
License: 0BSD

License: 0BSD
{license}"""

CHANGELOG = """\
{name} ({version}{revision}) unstable; urgency=medium

  * Version {version}. NEWS.gz has what users got.

 -- {maintainer}  {date}
"""

# The program needs no library, so that it starts sooner. lintian takes it for a library, since it is
# position-independent.
OVERRIDES = "{name}: shared-library-lacks-prerequisites\n"
# The library keeps the name by which programs load tinycdb's, and the package has one of its own.
SHARED_OVERRIDES = "{name}-libcdb1: package-name-doesnt-match-sonames libcdb1\n"

# The architectures of a program, by the machine in its head, as Debian names them.
ARCHITECTURES = {3: "i386", 40: "armhf", 62: "amd64", 183: "arm64", 243: "riscv64"}
# The folders of their libraries.
TRIPLETS = {
    "i386": "i386-linux-gnu",
    "armhf": "arm-linux-gnueabihf",
    "amd64": "x86_64-linux-gnu",
    "arm64": "aarch64-linux-gnu",
    "riscv64": "riscv64-linux-gnu",
}


def read(*names):
    """The bytes of a file, named from the top."""
    with open(os.path.join(TOP, *names), "rb") as file:
        return file.read()


def version():
    """The version of this tree."""
    return read("VERSION").decode().strip()


def release_time():
    """When the version was released, or the one before it: the first date of a heading in CHANGELOG.md."""
    heading = re.search(r"^## \d\S* \((.*)\)$", read("CHANGELOG.md").decode(), re.M)
    return datetime.datetime.fromisoformat(heading[1]).replace(tzinfo=datetime.timezone.utc)


def squeezed(data):
    """The same bytes, compressed without a date."""
    return gzip.compress(data, 9, mtime=0)


def architecture_of(program):
    """The architecture of a program, as Debian names it."""
    if program[:4] != b"\x7fELF":
        sys.exit("the program or library is no ELF file: build it by `make`")
    return ARCHITECTURES[int.from_bytes(program[18:20], "little")]


def depends_of(program):
    """The packages of the libraries that a program needs, if any."""
    versions = re.findall(rb"GLIBC_(\d+)\.(\d+)", program)
    needed = []
    if versions:
        least = max((int(first), int(second)) for first, second in versions)
        needed.append("libc6 (>= %d.%d)" % least)
    if b"\0libgcc_s.so.1\0" in program:
        needed.append("libgcc-s1")
    return ", ".join(needed)


def license_lines():
    """The license as a field of the copyright file has it: blank lines become a dot."""
    lines = read("LICENSE").decode().strip().split("\n")[4:]
    return "".join(f" {line.strip() or '.'}\n" for line in lines)


def facts():
    """What the texts of each package name."""
    return dict(name=NAME, version=version(), maintainer=source_fields()["Maintainer"])


def paragraphs():
    """The paragraphs of packaging/debian/control, each as its fields: that of the source, and those of the packages."""
    texts = read(DEBIAN, "control").decode().strip("\n").split("\n\n")
    return [dict(re.findall(r"^([\w-]+): (.*(?:\n .*)*)", it, re.M)) for it in texts]


def source_fields():
    """The fields of the source, with those that who publishes the packages sets."""
    given = {it: os.environ.get(variable) for it, variable in {**PUBLISHED, "Maintainer": "MAINTAINER"}.items()}
    return paragraphs()[0] | {it: value for it, value in given.items() if value}


def control_of(package, program, size):
    """The fields of a package, as dpkg reads them, of the program or the library in it and the size of its files in KiB."""
    source = source_fields()
    named = {it: source[it] for it in ("Maintainer", "Section", "Priority", *PUBLISHED) if it in source}
    fields = named | next(it for it in paragraphs()[1:] if it["Package"] == package)
    fields |= {"Version": version(), "Architecture": architecture_of(program), "Installed-Size": str(size)}
    fields |= {} if package == NAME else {"Source": NAME}
    known = {"${shlibs:Depends}": depends_of(program), "${misc:Depends}": "", "${binary:Version}": version()}
    needed = re.sub(r"\$\{[\w:]+\}", lambda it: known[it[0]], fields.pop("Depends"))
    needed = ", ".join(it for it in needed.split(", ") if it)
    fields |= {"Depends": needed} if needed else {}
    return "".join(f"{it}: {fields[it]}\n" for it in ORDER if it in fields)


def interface():
    """The version of tinycdb whose calls the library has."""
    return re.search(r"^#define TINYCDB_VERSION (.*)$", read("clib", "cdb.h").decode(), re.M)[1]


def copyright_text():
    """The license, as Debian has it."""
    return COPYRIGHT.format(license=license_lines(), **facts()).encode()


def changelog_text(when, revision=""):
    """The changes, as Debian has them, of the version in some revision."""
    date = when.strftime("%a, %d %b %Y %H:%M:%S +0000")
    return CHANGELOG.format(date=date, revision=revision, **facts()).encode()


def notes_of(package, when):
    """The license and the changes of a package."""
    notes = f"usr/share/doc/{package}"
    return {
        f"{notes}/copyright": (0o644, copyright_text()),
        f"{notes}/changelog.gz": (0o644, squeezed(changelog_text(when))),
        f"{notes}/NEWS.gz": (0o644, squeezed(read("CHANGELOG.md"))),
    }


def pages_of(*pages):
    """Manual pages, where a package has them."""
    return {
        f"usr/share/man/man{page[-1]}/{page}.gz": (0o644, squeezed(read("man", page)))
        for page in pages
        if os.path.exists(os.path.join(TOP, "man", page))
    }


def controlled(files, package, program):
    """The files of a package with those that describe it. A text is that of a link."""
    held = {name: data for name, (_, data) in files.items() if isinstance(data, bytes)}
    sums = "".join(
        f"{hashlib.md5(data).hexdigest()}  {name}\n" for name, data in sorted(held.items())
    )
    described = control_of(package, program, sum(len(data) // 1024 + 1 for data in held.values()))
    return files | {
        "DEBIAN/md5sums": (0o644, sums.encode()),
        "DEBIAN/control": (0o644, described.encode()),
    }


def files_of(program, when):
    """All files of the program's package, by name: their permissions and their bytes."""
    files = {
        "usr/bin/cdb": (0o755, program),
        "usr/share/bash-completion/completions/cdb": (0o644, read("completion", "cdb")),
        "usr/share/zsh/vendor-completions/_cdb": (0o644, read("completion", "_cdb")),
        "usr/share/fish/vendor_completions.d/cdb.fish": (0o644, read("completion", "cdb.fish")),
        f"usr/share/doc/{NAME}/GUIDE.md.gz": (0o644, squeezed(read("docs", "GUIDE.md"))),
        f"usr/share/lintian/overrides/{NAME}": (0o644, OVERRIDES.format(**facts()).encode()),
    }
    return controlled(files | notes_of(NAME, when) | pages_of(*PAGES), NAME, program)


# The calls of the library that tinycdb has not.
OWN_CALLS = ("cdb_make_abort",)


def symbols_of(package):
    """The calls of the library, each with the version whose calls they are, for what is built with it."""
    names = re.findall(r"^    (cdb_\w+);$", read("clib", "libcdb.map").decode(), re.M)
    # A program that makes a call which tinycdb has not needs this package.
    lines = [f"libcdb.so.1 {package} #MINVER# | libcdb1 #MINVER#", f"| {package} #MINVER#"]
    own = f"{version()} 1"
    lines += [f" {name}@Base {own if name in OWN_CALLS else interface()}" for name in sorted(names)]
    return "\n".join(lines) + "\n"


def shared_files(library, when):
    """All files of the shared library's package."""
    package = f"{NAME}-libcdb1"
    where = f"usr/lib/{TRIPLETS[architecture_of(library)]}"
    overrides = SHARED_OVERRIDES.format(**facts()).encode()
    held = {
        f"{where}/libcdb.so.1": (0o644, library),
        f"usr/share/lintian/overrides/{package}": (0o644, overrides),
    }
    files = controlled(held | notes_of(package, when), package, library)
    # What a package that is built with it depends on, and that the loader's cache is made anew.
    files["DEBIAN/shlibs"] = (0o644, f"libcdb 1 {package} | libcdb1\n".encode())
    files["DEBIAN/symbols"] = (0o644, symbols_of(package).encode())
    files["DEBIAN/triggers"] = (0o644, b"activate-noawait ldconfig\n")
    return files


def building_files(library, archive, when):
    """All files of the package that programs are built with."""
    where = f"usr/lib/{TRIPLETS[architecture_of(library)]}"
    described = described_library("/usr", f"/{where}")
    files = {
        "usr/include/cdb.h": (0o644, read("clib", "cdb.h")),
        f"{where}/libcdb.a": (0o644, archive),
        f"{where}/libcdb.so": (0o777, "libcdb.so.1"),
        # Its objects can be part of a shared library, too.
        f"{where}/libcdb_pic.a": (0o777, "libcdb.a"),
        f"{where}/pkgconfig/libcdb.pc": (0o644, described.encode()),
    }
    package = f"{NAME}-libcdb-dev"
    return controlled(files | notes_of(package, when) | pages_of("cdb.3"), package, library)


def described_library(prefix, folder):
    """The library as pkg-config reads it."""
    words = {"PREFIX": prefix, "LIBDIR": folder, "VERSION": interface(), "RELEASE": version()}
    return re.sub(r"@(\w+)@", lambda word: words[word[1]], read("clib", "libcdb.pc.in").decode())


def lay_out(folder, files, when):
    """Writes files below a folder, all of one date."""
    for name, (mode, data) in files.items():
        path = os.path.join(folder, name)
        os.makedirs(os.path.dirname(path), exist_ok=True)
        if isinstance(data, str):
            os.symlink(data, path)
            continue
        with open(path, "wb") as file:
            file.write(data)
        os.chmod(path, mode)
    for path, _, names in os.walk(folder, topdown=False):
        os.chmod(path, 0o755)
        for it in [path, *(os.path.join(path, name) for name in names)]:
            os.utime(it, (when.timestamp(), when.timestamp()), follow_symlinks=False)


def make_package(package, files, architecture, folder):
    """Makes a package of some files, and answers its name."""
    made = os.path.join(folder, f"{package}_{version()}_{architecture}.deb")
    with tempfile.TemporaryDirectory() as tree:
        lay_out(tree, files, release_time())
        dated(["dpkg-deb", "--root-owner-group", "-Zgzip", "--build", tree, made])
    return made


def dated(words, **how):
    """Runs a command that dates what it makes as the version is dated."""
    environment = {**os.environ, "SOURCE_DATE_EPOCH": str(int(release_time().timestamp()))}
    subprocess.run(words, env=environment, stdout=subprocess.DEVNULL, check=True, **how)


def make_deb(path, folder):
    """Makes the package of a static program, and answers its name."""
    program = stripped(path)
    if depends_of(program):
        sys.exit(f"{path} is not static: with a C compiler and a static C library, `make` links it so")
    files = files_of(program, release_time())
    return [make_package(NAME, files, architecture_of(program), folder)]


def stripped(path):
    """A program or a library without the symbols that nothing needs."""
    with tempfile.TemporaryDirectory() as folder:
        copy = os.path.join(folder, "copy")
        words = ["strip", "-D", "--strip-unneeded", "--remove-section=.comment", "-o", copy, path]
        subprocess.run(words, check=True)
        with open(copy, "rb") as file:
            return file.read()


def make_clib(libraries, folder):
    """Makes the packages of the libraries in a folder, and answers their names."""
    library, archive = (stripped(os.path.join(libraries, it)) for it in ("libcdb.so.1", "libcdb.a"))
    when, architecture = release_time(), architecture_of(library)
    shared = shared_files(library, when)
    building = building_files(library, archive, when)
    return [
        make_package(f"{NAME}-libcdb1", shared, architecture, folder),
        make_package(f"{NAME}-libcdb-dev", building, architecture, folder),
    ]


def source_files():
    """The files of the folder debian of the source package: those of packaging/debian, and what is of this version."""
    fields = "".join(f"{it}: {value}\n" for it, value in source_fields().items())
    rest = read(DEBIAN, "control").decode().split("\n\n", 1)[1]
    return {
        "control": (0o644, f"{fields}\n{rest}".encode()),
        **{it: (0o644, read(DEBIAN, it)) for it in ("source/format", "tests/control")},
        "rules": (0o755, read(DEBIAN, "rules")),
        "changelog": (0o644, changelog_text(release_time(), "-1")),
        "copyright": (0o644, copyright_text()),
        f"{NAME}.lintian-overrides": (0o644, OVERRIDES.format(**facts()).encode()),
        f"{NAME}-libcdb1.lintian-overrides": (0o644, SHARED_OVERRIDES.format(**facts()).encode()),
        f"{NAME}-libcdb1.symbols": (0o644, symbols_of(f"{NAME}-libcdb1").encode()),
    }


def make_source(tarball, folder):
    """Makes the source package of a release's tarball, and answers the names of its files."""
    whole = f"{NAME}_{version()}"
    original = os.path.join(folder, f"{whole}.orig.tar.gz")
    shutil.copy(tarball, original)
    with tempfile.TemporaryDirectory() as tree:
        subprocess.run(["tar", "-xzf", original, "-C", tree, "--strip-components=1"], check=True)
        lay_out(os.path.join(tree, "debian"), source_files(), release_time())
        dated(["dpkg-source", "--build", tree], cwd=folder)
    return [original, *(os.path.join(folder, f"{whole}-1.{it}") for it in ("debian.tar.xz", "dsc"))]


def committed(whole, *paths):
    """The files of the commit that is checked out, all or those at some paths, as a tarball of a folder."""
    words = ["git", "-c", "tar.umask=0022", "archive", "--format=tar", f"--prefix={whole}/", "HEAD", *paths]
    try:
        done = subprocess.run(words, cwd=TOP, capture_output=True, check=False)
    except FileNotFoundError:
        sys.exit("No tarball is made: the command git is not there")
    if done.returncode != 0:
        sys.exit("No tarball is made: it has what git says is committed, and this is no git checkout")
    return done.stdout


def make_dist(folder):
    """Makes the tarball of the commit that is checked out, and answers its name."""
    whole = f"{NAME}-{version()}"
    tar = committed(whole)
    made = os.path.join(folder, f"{whole}.tar.gz")
    with open(made, "wb") as file:
        file.write(squeezed(tar))
    return [made]


def main():
    kind, *words = sys.argv[1:] or [""]
    makers = {("dist", 1): make_dist, ("deb", 2): make_deb, ("clib", 2): make_clib, ("source", 2): make_source}
    if (kind, len(words)) not in makers:
        sys.exit(__doc__)
    os.makedirs(words[-1], exist_ok=True)
    try:
        names = makers[kind, len(words)](*words)
    except FileNotFoundError as fault:
        sys.exit(f"{fault.filename} is not there")
    for made in names:
        with open(made, "rb") as file:
            print(f"{hashlib.sha256(file.read()).hexdigest()}  {made}")


if __name__ == "__main__":
    main()
