"""How the script `sheet` writes a file: complete or not at all.

The bytes go into a new file in the same folder, which takes the name once they are on the disk. Until then a file of that name stays as it was, and
whatever fails, nothing else is left. A pipe, a device or a descriptor as /dev/stdout cannot be exchanged like that: the bytes go straight to it.
"""
import contextlib
import os
import signal
import stat


def into(descriptor, content):
    """Writes to a descriptor: all of it, or there is an OSError."""
    with open(descriptor, "wb", closefd=False) as file:
        file.write(content)


# ---- where a name leads

def descriptor_of(path):
    """The descriptor of this process that a path names, as /dev/fd/1 does; else None."""
    folder, name = os.path.split(path)
    return int(name) if name.isdecimal() and os.path.realpath(folder) == os.path.realpath("/proc/self/fd") else None


def followed(path):
    """The path that links lead to, from one to the next."""
    while os.path.islink(path) and descriptor_of(path) is None:
        path = os.path.join(os.path.dirname(path), os.readlink(path))
    return path


# ---- a plain file

@contextlib.contextmanager
def spared():
    """Has the signals wait that would end the script before it can clear up. Ctrl-C is none of them: it is an exception."""
    before = signal.pthread_sigmask(signal.SIG_BLOCK, {signal.SIGTERM, signal.SIGHUP})
    try:
        yield
    finally:
        signal.pthread_sigmask(signal.SIG_SETMASK, before)


def make(path, content, old):
    """Makes a new file and has it on the disk. It may be read and written by whoever may do so with the old one, where there is one."""
    descriptor = os.open(path, os.O_WRONLY | os.O_CREAT | os.O_EXCL, 0o666)
    try:
        if old:
            with contextlib.suppress(OSError):  # not everybody may give a file to its old owner
                os.fchown(descriptor, old.st_uid, old.st_gid)
            os.fchmod(descriptor, old.st_mode & 0o777)
        into(descriptor, content)
        os.fsync(descriptor)
    finally:
        os.close(descriptor)


def exchange(path, content, old):
    """Puts a new file in the place of the old one, or where there is none."""
    new = os.path.join(os.path.dirname(path), f".sheet-{os.urandom(8).hex()}")
    with spared():
        try:
            make(new, content, old)
            os.replace(new, path)
        except BaseException:
            with contextlib.suppress(OSError):  # what went wrong first is told
                os.unlink(new)
            raise


# ---- any file

def write(out, content):
    """Writes a file; or there is an OSError, and a plain file is as it was."""
    try:
        old = os.stat(out)
    except FileNotFoundError:
        old = None
    path = followed(out)
    if descriptor_of(path) is not None:
        into(descriptor_of(path), content)
    elif old is None:
        exchange(path, content, old)
    else:
        descriptor = os.open(path, os.O_WRONLY)  # what may not be written is not exchanged, either
        try:
            if stat.S_ISREG(old.st_mode):
                exchange(path, content, old)
            else:
                into(descriptor, content)
        finally:
            os.close(descriptor)
