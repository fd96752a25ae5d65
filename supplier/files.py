"""Reading files whole, and writing them whole or not at all."""

import os
import tempfile

from supplier.fault import Fault


def read_bytes(path, what):
    try:
        with open(path, "rb") as file:
            return file.read()
    except OSError as error:
        raise Fault(f"{what} {path}: {error.strerror}") from None


def read_text(path, what):
    data = read_bytes(path, what)
    try:
        return data.decode("utf-8")
    except UnicodeDecodeError:
        raise Fault(f"{what} {path} is not text") from None


def write_whole(path, data):
    """Writes beside the file and renames, so that no half of it is ever seen."""
    target = os.path.realpath(path)
    if os.path.exists(target) and not os.path.isfile(target):
        raise Fault(f"{path} is not a file that can be replaced")
    try:
        handle, beside = tempfile.mkstemp(
            prefix=".writing-", dir=os.path.dirname(target))
    except OSError as error:
        raise Fault(f"{path}: {error.strerror}") from None
    try:
        with os.fdopen(handle, "wb") as file:
            file.write(data)
        os.chmod(beside, 0o666 & ~_umask())
        os.replace(beside, target)
    except OSError as error:
        raise Fault(f"{path}: {error.strerror}") from None
    finally:
        if os.path.exists(beside):
            os.unlink(beside)


def _umask():
    # The mask can only be read by setting it.
    mask = os.umask(0)
    os.umask(mask)
    return mask
