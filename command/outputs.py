"""Files that are written: never over what was given, nor over anything that exists unless it is asked for, and whole or not at all."""
import os
import stat
import tempfile

from ends import Refused


def is_plain(name):
    """Whether a name is that of a plain file, or of nothing: a device is written to, and not replaced."""
    return not os.path.exists(name) or stat.S_ISREG(os.stat(name).st_mode)


def check(name, given, force):
    """Ends where a file must not be written: over one of those that were given, or over anything else that exists without `--force`."""
    if os.path.isdir(name):
        raise Refused(f"'{name}' is a folder: the name of a file to write is expected")
    folder = os.path.dirname(name) or "."
    if not os.path.isdir(folder):
        raise Refused(f"'{name}' cannot be written: there is no folder '{folder}'")
    if is_plain(name) and not os.access(os.path.dirname(os.path.realpath(name)), os.W_OK):
        raise Refused(f"'{name}' cannot be written: there is no right to write into its folder")
    for other in given:
        if os.path.exists(name) and os.path.exists(other) and os.path.samefile(name, other):
            raise Refused(f"'{name}' is the same file as '{other}': it is not written over")
    if os.path.lexists(name) and not force:
        raise Refused(f"'{name}' exists: it is written over with --force only")


def put(name, data):
    """Writes a file: beside its place and then into it, so that one that stood there is lost only when the new one is whole."""
    try:
        if is_plain(name):
            replace(os.path.realpath(name), data)
        else:
            with open(name, "wb", buffering=0) as file:
                rest = memoryview(data)
                while rest:
                    rest = rest[file.write(rest):]
    except OSError as error:
        raise Refused(f"'{name}' cannot be written: {error.strerror}") from None


def replace(name, data):
    """Writes a plain file, with the rights that a new file has or that the old one had."""
    rights = stat.S_IMODE(os.stat(name).st_mode) if os.path.exists(name) else 0o666 & ~umask()
    handle, beside = tempfile.mkstemp(prefix=".tangezult-", dir=os.path.dirname(name))
    try:
        with os.fdopen(handle, "wb") as file:
            file.write(data)
            file.flush()
            os.fsync(file.fileno())
        os.chmod(beside, rights)
        os.replace(beside, name)
    except BaseException:
        os.unlink(beside)
        raise


def umask():
    """The rights that new files do not get; it can only be asked for by setting it."""
    mask = os.umask(0)
    os.umask(mask)
    return mask
