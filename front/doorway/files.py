"""A file that is written in place and synced: the calls of the system that the transcript stands on.

Tests put another class of the same methods in its place, which cuts the power between two of them.
"""
import fcntl
import os


class SyncedFile:
    """An open file. What was written is safe once `sync` has returned, and not before."""

    def __init__(self, path, mode):
        self.number = os.open(path, os.O_RDWR | os.O_CREAT | os.O_CLOEXEC, mode)

    def lock(self):
        """Takes the file for this process until it ends, however that ends. False if another has it."""
        try:
            fcntl.flock(self.number, fcntl.LOCK_EX | fcntl.LOCK_NB)
        except BlockingIOError:
            return False
        return True

    def size(self):
        return os.fstat(self.number).st_size

    def read(self, size, at):
        return os.pread(self.number, size, at)

    def write(self, text, at):
        done = os.pwrite(self.number, text, at)
        if done != len(text):
            raise OSError("the disk takes no more")

    def truncate(self, size):
        os.ftruncate(self.number, size)

    def sync(self):
        os.fdatasync(self.number)

    def close(self):
        os.close(self.number)


def sync_folder(path):
    """Makes the names in a folder safe."""
    number = os.open(path, os.O_RDONLY | os.O_CLOEXEC)
    try:
        os.fsync(number)
    finally:
        os.close(number)


def write_whole(path, text, mode=0o666):
    """Writes a small file so that after any stop it is there whole or as it was before."""
    fresh = path.with_name(path.name + ".new")
    with open(fresh, "wb", opener=lambda name, flags: os.open(name, flags, mode)) as file:
        file.write(text)
        file.flush()
        os.fsync(file.fileno())
    fresh.replace(path)
    sync_folder(path.parent)
