"""Files of text as the tools read them, with a sentence of their own for what is not UTF-8."""
import os
from pathlib import Path
from typing import Union

from .faults import Fault


def decoded(given: bytes, name: str) -> str:
    """Bytes as text, whose lines end in `\\n`; `name` is the file's in the message. Fault where a byte is no UTF-8."""
    try:
        return given.decode("utf-8").replace("\r\n", "\n").replace("\r", "\n")
    except UnicodeDecodeError as why:
        raise Fault(f"{name}: byte {why.start} is no UTF-8") from None


def text(path: Union[str, "os.PathLike[str]"]) -> str:
    """The text of a file. OSError where it cannot be read, Fault where it is no UTF-8."""
    return decoded(Path(path).read_bytes(), os.fspath(path))
