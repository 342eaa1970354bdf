"""A file that somebody handed in: opened without following a link, and read once. Only the bytes that were read are judged."""
import os
import stat
from dataclasses import dataclass
from pathlib import PurePath

from . import NotJudged

MOST = 1_000_000  # bytes
FOLDER = getattr(os, "O_PATH", os.O_RDONLY) | os.O_DIRECTORY | os.O_CLOEXEC
FILE = os.O_RDONLY | os.O_NONBLOCK | os.O_NOCTTY | os.O_CLOEXEC  # neither a pipe nor a terminal holds it up
ITSELF = os.O_NOFOLLOW


@dataclass(frozen=True)
class Submission:
    name: str
    data: bytes

    def is_text(self):
        """False for an image (BQPI), its hex (which begins with a digit), an object file, and what is no UTF-8."""
        try:
            self.data.decode("utf-8")
        except UnicodeDecodeError:
            return False
        return not self.data.startswith((b"BQPI", b"\x7fELF")) and not self.data.lstrip()[:1].isdigit()


def steps(path):
    """Each folder on the way and the file, with the flags that open it. In `/` a folder may be a link, as /tmp is on a Mac."""
    *folders, name = PurePath(path).parts or (".",)
    if PurePath(path).is_absolute():
        yield from ((each, FOLDER) for each in folders[:2])
        folders = folders[2:]
    yield from ((each, FOLDER | ITSELF) for each in folders)
    yield name, FILE | ITSELF


def why_not(name, folder, failure):
    try:
        is_link = stat.S_ISLNK(os.stat(name, dir_fd=folder, follow_symlinks=False).st_mode)
    except OSError:
        is_link = False
    return "a symbolic link is not followed" if is_link else f"it can't be opened: {failure.strerror}"


def opened(path):
    """A descriptor of the file."""
    at = None
    for name, flags in steps(path):
        folder = at
        try:
            at = os.open(name, flags, dir_fd=folder)
        except OSError as failure:
            raise NotJudged(why_not(name, folder, failure)) from failure
        finally:
            if folder is not None:
                os.close(folder)
    return at


def read(path):
    """The file at a path, if it is a regular one of at most MOST bytes."""
    descriptor = opened(path)
    try:
        if not stat.S_ISREG(os.fstat(descriptor).st_mode):
            raise NotJudged("it is no regular file")
        data = b""
        while piece := os.read(descriptor, MOST + 1 - len(data)):
            data += piece
    except OSError as failure:
        raise NotJudged(f"it can't be read: {failure.strerror}") from failure
    finally:
        os.close(descriptor)
    if len(data) > MOST:
        raise NotJudged(f"it has more than {MOST:,} bytes")
    return Submission(path, data)
