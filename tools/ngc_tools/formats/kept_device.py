"""What is kept of a device in a file beside it, whole or not at all."""
import errno
import os
import zlib
from contextlib import suppress
from pathlib import Path

from ngc_tools.files import read, sync_folder, write_new
from ngc_tools.formats.device import LARGE_SIZE

_MOST = LARGE_SIZE + 65_536  # bytes of such a file


class KeptDevice:
    """The file beside a device that is a file: a line that says what it is, and bytes, which are deflated."""

    def __init__(self, device: str | Path, suffix: str, mark: bytes) -> None:
        """`mark` is that line."""
        self.device, self.path, self._mark = str(device), f"{device}{suffix}", mark

    def write(self, data: bytes, head: bytes = b"") -> None:
        """Keeps these bytes behind `head`, and syncs that. Raises OSError with the path, also where something else
        stands there, NotWritten where that came just now."""
        if not os.path.isfile(self.device):
            return  # a disk has no folder beside it for that
        is_there = os.path.lexists(self.path)
        if is_there and self.text() is None:
            raise FileExistsError(errno.EEXIST, "it isn't what is kept there, and isn't written over", self.path)
        write_new(self.path, self._mark + head + zlib.compress(data, 1), (), is_there)
        sync_folder(self.path)

    def text(self) -> bytes | None:
        """What stands there behind the mark; None for anything else."""
        with suppress(OSError):
            text = read(self.path, _MOST)
            return text[len(self._mark):] if text.startswith(self._mark) else None
        return None

    def remove(self) -> None:
        """Removes it, if it is what is kept there. Raises OSError."""
        if self.text() is not None:
            os.unlink(self.path)
            sync_folder(self.path)


def inflated(text: bytes) -> bytes | None:
    """The bytes that were deflated; None where they aren't whole."""
    with suppress(zlib.error):
        unpacker = zlib.decompressobj()
        data = unpacker.decompress(text, LARGE_SIZE + 1)
        return data if unpacker.eof else None
    return None
