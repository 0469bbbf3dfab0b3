"""Files and folders in the making, for tools/join and tools/split: a name holds what it held until all is written.

No command: the classes are used by the scripts beside it. What is begun stands beside its target, as NAME.tav-K, and is taken
away where it isn't published; a process that is killed may leave it behind.
"""

import contextlib
import os
import shutil
import stat
import tempfile


def free_name(target, make):
    """Makes something by a name beside a target that nothing has, and gives both."""
    for number in range(10_000):
        name = f"{target}.tav-{number}"
        with contextlib.suppress(FileExistsError):
            return name, make(name)
    raise FileExistsError(17, "File exists", target)


def to_disk(path):
    """Asks the system to write a file, or what a folder lists, to the disk."""
    handle = os.open(path, os.O_RDONLY)
    try:
        os.fsync(handle)
    finally:
        os.close(handle)


def is_direct(name):
    """Whether bytes go to a name at once: a device, a pipe, an open file of the process."""
    folder = os.path.realpath(os.path.dirname(os.path.abspath(name))) + "/"
    exists = os.path.exists(name)
    return folder.startswith(("/dev/", "/proc/")) or exists and not stat.S_ISREG(os.stat(name).st_mode)


class StagedFile:
    """A file in the making. `with StagedFile(name) as it: it.write(..); it.publish()`. A link stays, and its target is made anew
    with the mode that it had. Where bytes go to the name at once, they do when all are there."""

    def __init__(self, name):
        self.target, self.beside = os.path.realpath(name), None
        if os.path.isdir(self.target):
            raise IsADirectoryError(21, "Is a directory", name)
        if is_direct(name):
            self.target, self.file = name, tempfile.TemporaryFile()
            return
        self.beside, handle = free_name(self.target, lambda it: os.open(it, os.O_WRONLY | os.O_CREAT | os.O_EXCL, 0o666))
        self.file = os.fdopen(handle, "wb")
        if os.path.exists(self.target):
            os.fchmod(handle, stat.S_IMODE(os.stat(self.target).st_mode))

    def __enter__(self):
        return self

    def __exit__(self, *_):
        with contextlib.suppress(OSError):
            self.file.close()
        if self.beside:
            with contextlib.suppress(OSError):
                os.remove(self.beside)

    def write(self, data):
        self.file.write(data)

    def publish(self):
        self.file.flush()
        if self.beside is None:
            self.file.seek(0)
            with open(self.target, "ab") as out:
                shutil.copyfileobj(self.file, out)
            return
        os.fsync(self.file.fileno())
        os.rename(self.beside, self.target)
        self.beside = None
        to_disk(os.path.dirname(self.target))


class StagedFolder:
    """A folder in the making, for a name where nothing is or an empty folder."""

    def __init__(self, name):
        self.target = os.path.realpath(name)
        if os.path.exists(self.target) and os.listdir(self.target):
            raise OSError(39, "Directory not empty", name)
        os.makedirs(os.path.dirname(self.target), exist_ok=True)
        self.beside = free_name(self.target, os.mkdir)[0]

    def __enter__(self):
        return self

    def __exit__(self, *_):
        if self.beside:
            shutil.rmtree(self.beside, ignore_errors=True)

    def put(self, name, data):
        path = os.path.join(self.beside, name)
        with open(path, "xb") as it:
            it.write(data)
        to_disk(path)

    def publish(self):
        to_disk(self.beside)
        os.rename(self.beside, self.target)
        self.beside = None
        to_disk(os.path.dirname(self.target))
