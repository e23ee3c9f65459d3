"""Folders in which `run-examples` makes calls, told by the paths in them: a file is its bytes, or its bytes and its permissions where these
aren't 0o644; a link is the text that it has, and another name of a file is `Hard` with its first one; a folder is None."""
import ctypes
import os
import stat
import subprocess
import tempfile

USUAL = 0o644
LIBRARY = ctypes.CDLL(None)
# prctl's number for what a program may never get, and the power that root has over the permissions of files
DROP, OVERRIDE = 24, 1


class Hard(str):
    """Another name of the file that has this one."""


def bind():
    """Binds this process, before it becomes another program: it gets files of the usual permissions, and those of each file hold for root too."""
    os.umask(0o022)
    LIBRARY.prctl(DROP, OVERRIDE, 0, 0, 0)


def fill(room, told):
    """Makes what is told in an empty folder."""
    for path, entry in told.items():
        path = os.path.join(room, path)
        if entry is None:
            os.mkdir(path)
        elif isinstance(entry, Hard):
            os.link(os.path.join(room, entry), path)
        elif isinstance(entry, str):
            os.symlink(entry, path)
        else:
            text, mode = entry if isinstance(entry, tuple) else (entry, USUAL)
            with open(path, "wb") as file:
                file.write(text)
            os.chmod(path, mode)


def seen(told):
    """What is told, as it is found: a file with two names has its bytes under both."""
    return {path: told[entry] if isinstance(entry, Hard) else entry for path, entry in told.items()}


def entry_at(path):
    """What is told of a path."""
    mode = os.lstat(path).st_mode
    if stat.S_ISDIR(mode):
        return None
    if stat.S_ISLNK(mode):
        return os.readlink(path)
    with open(path, "rb") as file:
        text = file.read()
    return text if stat.S_IMODE(mode) == USUAL else (text, stat.S_IMODE(mode))


def found_in(room):
    """What a folder has."""
    paths = [os.path.join(top, name) for top, folders, files in os.walk(room) for name in folders + files]
    return {os.path.relpath(path, room): entry_at(path) for path in paths}


def has_read_only(told):
    """Whether a file that is told may not be written."""
    return any(isinstance(entry, tuple) and not entry[1] & 0o222 for entry in told.values())


def are_held():
    """Whether permissions hold here for what is bound."""
    with tempfile.TemporaryDirectory() as room:
        fill(room, {"it": (b"", 0o444)})
        return bool(subprocess.run(["sh", "-c", ": >> it"], cwd=room, stderr=subprocess.DEVNULL, preexec_fn=bind, check=False).returncode)
