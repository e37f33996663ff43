"""The trees in which crates are proved side by side.

The checker works alone in the folder of a crate and in those of all crates below it. So each crate gets a
tree of its own, a repository of the crate and of those below it: its sources are copied, and the sources
and libraries of those below are hard links, or copies if the file system has none. The folder `out`, in
which the checker keeps what it proved, moves into the tree and back.
"""

import contextlib
import fcntl
import os
import re
import shutil
import subprocess

KEPT = "out"
SOURCES = ("src", "specs", "proofs")
# What the checker proved of a crate's functions.
PROVED = os.path.join(KEPT, "incremental")
# What the check of a crate reads of those below it.
READ_BELOW = (*SOURCES, os.path.join(KEPT, "rlib"))
# What is no source, if git does not say what is.
NOT_SOURCES = ("bin", "dist", KEPT, ".git", "__pycache__")


def read(*path):
    """The text of a file."""
    with open(os.path.join(*path), encoding="utf-8") as file:
        return file.read()


def files_of(top):
    """The files of the repository: those that git tracks, or all if this is no clone."""
    found = git(top, "ls-files", "-z").split("\0")
    if not any(found):
        for place, folders, names in os.walk(top):
            folders[:] = [it for it in folders if it not in NOT_SOURCES]
            found += [os.path.relpath(os.path.join(place, it), top) for it in names]
    return [it for it in found if os.path.isfile(os.path.join(top, it))]


def git(top, *words):
    """What git says of a repository, or an empty text if it fails or this is no clone."""
    done = subprocess.run(["git", *words], cwd=top, capture_output=True, text=True, check=False)
    return done.stdout if done.returncode == 0 else ""


def uncommitted(top):
    """The first file that is not as the commit that is checked out has it, or None."""
    lines = git(top, "status", "--porcelain").splitlines()
    return lines[0][3:] if lines else None


def commit_of(top):
    """The commit that is checked out, or an empty text if this is no clone or something is not committed."""
    return "" if uncommitted(top) else git(top, "rev-parse", "--verify", "HEAD").strip()


def lines_of(top):
    """The lines of crates.txt that list a crate, by the crate's name."""
    lines = [line.split("#")[0] for line in read(top, "crates.txt").splitlines()]
    return {line.split(":")[0].split()[0]: line for line in lines if ":" in line}


def libraries_of(top):
    """For each crate of the repository the crates that its line in crates.txt lists."""
    listed = {crate: line.split(":")[1].split() for crate, line in lines_of(top).items()}
    return {crate: [it for it in below if it in listed] for crate, below in listed.items()}


def crates_below(libraries, crate):
    """A crate and all that it stands on, lowest first."""
    found = []
    for below in libraries[crate]:
        found += [it for it in crates_below(libraries, below) if it not in found]
    return [*found, crate]


def link(source, target):
    """Gives a file a second name, or copies it if the file system cannot."""
    try:
        os.link(source, target)
    except OSError:
        shutil.copy2(source, target)


def link_proved(source, target):
    """Gives a file of what was proved a second name. Its other files the checker writes in place, so they are copied."""
    (link if source.endswith(".oantt") else shutil.copy2)(source, target)


@contextlib.contextmanager
def alone_in(folder, how=fcntl.LOCK_EX):
    """Keeps the checker and other builds out of a crate's folder, as the checker does, once none works there."""
    held = os.open(folder, os.O_RDONLY)
    try:
        try:
            fcntl.flock(held, how)
        except BlockingIOError:
            raise
        except OSError:
            # Some file systems have no locks.
            pass
        yield
    finally:
        os.close(held)


def alone_now(folder):
    """Keeps others out of a folder, or raises `BlockingIOError` if one works there."""
    return alone_in(folder, fcntl.LOCK_EX | fcntl.LOCK_NB)


class Trees:
    """The trees of a repository's crates, in a folder of their own."""

    def __init__(self, top, place):
        self.top, self.place = top, place
        self.lines, self.libraries = lines_of(top), libraries_of(top)

    def folder(self, crate):
        """A crate's folder in the repository."""
        return os.path.join(self.top, "crates", crate)

    def has_links(self):
        """Whether a tree can have hard links of the repository's files."""
        os.makedirs(self.place, exist_ok=True)
        probe = os.path.join(self.place, "link")
        with contextlib.suppress(FileNotFoundError):
            os.remove(probe)
        try:
            os.link(os.path.join(self.top, "crates.txt"), probe)
        except OSError:
            return False
        os.remove(probe)
        return True

    @contextlib.contextmanager
    def tree_of(self, crate):
        """Makes a crate's tree, gives the crate's folder there, and takes the tree back in the end."""
        with contextlib.ExitStack() as held:
            with contextlib.ExitStack() as below:
                # In the order of the checker, so that it and this do not wait for each other.
                for it in sorted(crates_below(self.libraries, crate)):
                    (held if it == crate else below).enter_context(alone_in(self.folder(it)))
                self.take_back(crate)
                held.callback(self.take_back, crate)
                inside = self.make(crate)
            yield inside

    @contextlib.contextmanager
    def room_of(self, crate, name, texts, kept=None):
        """Makes a tree of a crate with these texts instead of those of its files, gives the crate's folder there, and
        removes the tree in the end. What a folder kept of proofs is there by hard links, so the folder stays as it is."""
        tree = os.path.join(self.place, name)
        try:
            with contextlib.ExitStack() as held:
                for it in sorted(crates_below(self.libraries, crate)):
                    held.enter_context(alone_in(self.folder(it), fcntl.LOCK_SH))
                shutil.rmtree(tree, ignore_errors=True)
                inside = self.make_sources(crate, tree)
            if kept is not None:
                shutil.copytree(kept, os.path.join(inside, PROVED), copy_function=link_proved)
            for path, text in texts.items():
                os.makedirs(os.path.dirname(os.path.join(inside, path)), exist_ok=True)
                with open(os.path.join(inside, path), "w", encoding="utf-8") as file:
                    file.write(text)
            yield inside
        finally:
            shutil.rmtree(tree, ignore_errors=True)

    def give_proved(self, crate, to):
        """Gives what the checker kept of a crate and of those below it second names in a folder, where it is newer than what is there."""
        for it in crates_below(self.libraries, crate):
            kept, own = os.path.join(self.folder(it), PROVED), re.compile(rf"Rattle-{it}[.-].*\.oantt")
            with alone_in(self.folder(it), fcntl.LOCK_SH):
                for place, _, names in os.walk(kept):
                    there = os.path.join(to, os.path.relpath(place, kept))
                    os.makedirs(there, exist_ok=True)
                    for name in filter(own.fullmatch, names):
                        source, target = os.path.join(place, name), os.path.join(there, name)
                        if not os.path.exists(target) or os.path.getmtime(target) < os.path.getmtime(source):
                            link(source, f"{target}.new")
                            os.replace(f"{target}.new", target)

    def make(self, crate):
        """Makes the tree of a crate, and answers the crate's folder there."""
        inside = self.make_sources(crate, os.path.join(self.place, crate))
        with contextlib.suppress(FileNotFoundError):
            shutil.move(os.path.join(self.folder(crate), KEPT), os.path.join(inside, KEPT))
        return inside

    def make_sources(self, crate, tree):
        """Makes a tree of a crate without what the checker kept of it, and answers the crate's folder there."""
        inside = os.path.join(tree, "crates", crate)
        os.makedirs(inside)
        crates = crates_below(self.libraries, crate)
        with open(os.path.join(tree, "crates.txt"), "w", encoding="utf-8") as file:
            file.writelines(f"{self.lines[it]}\n" for it in crates)
        self.link(crates[:-1], tree)
        for part in SOURCES:
            self.copy(crate, part, tree, shutil.copy2)
        # The words that the program is run on, which the checker reads too.
        with contextlib.suppress(FileNotFoundError):
            shutil.copy2(os.path.join(self.folder(crate), "args"), inside)
        return inside

    def link(self, crates, tree):
        """Links into a tree what the check of a crate above some crates reads of them."""
        for crate in crates:
            for part in READ_BELOW:
                self.copy(crate, part, tree, link)

    def copy(self, crate, part, tree, how):
        """Copies a part of a crate into a tree."""
        source = os.path.join(self.folder(crate), part)
        if os.path.isdir(source):
            shutil.copytree(source, os.path.join(tree, "crates", crate, part), copy_function=how)

    def take_back(self, crate):
        """Moves what the checker kept in a crate's tree to the crate, and removes the tree."""
        tree = os.path.join(self.place, crate)
        kept = os.path.join(tree, "crates", crate, KEPT)
        if os.path.isdir(kept):
            shutil.rmtree(os.path.join(self.folder(crate), KEPT), ignore_errors=True)
            shutil.move(kept, os.path.join(self.folder(crate), KEPT))
        shutil.rmtree(tree, ignore_errors=True)

    def take_back_all(self):
        """Takes back the trees that a build left that was killed."""
        left = os.listdir(self.place) if os.path.isdir(self.place) else []
        for crate in [it for it in left if it in self.lines]:
            # Another build may work in it.
            with contextlib.suppress(BlockingIOError):
                with alone_now(self.folder(crate)):
                    self.take_back(crate)
