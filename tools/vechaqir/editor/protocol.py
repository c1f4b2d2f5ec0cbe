"""Messages of the Language Server Protocol on a stream of bytes: their frames, and what each has to be."""
import json
import re
from typing import Any, Dict, List, Mapping, NamedTuple, Optional, Tuple, Union

# The most bytes of one message, and of what may come before a header ends.
MOST_BYTES, MOST_HEADER = 32_000_000, 65_536
PARSE_ERROR, INVALID_REQUEST, NO_METHOD, INVALID_PARAMS, INTERNAL = -32700, -32600, -32601, -32602, -32603
NOT_INITIALIZED, REQUEST_FAILED = -32002, -32803
NAME = b"Content-Length:"
LENGTH = re.compile(rb"content-length:[ \t]*([0-9]{1,9})[ \t]*(?=\r\n|\Z)", re.I)
END = b"\r\n\r\n"


class Wrong(Exception):
    """A request that is refused: the code of JSON-RPC or of the protocol, and a sentence."""

    def __init__(self, code: int, text: str) -> None:
        super().__init__(text)
        self.code, self.text = code, text


class Bad(NamedTuple):
    """Bytes that are not a message, with what is wrong with them."""

    text: str


class Frames:
    """The messages in a stream of bytes. What is not a message is reported once and skipped: reading continues at the next header."""

    def __init__(self) -> None:
        self.held = bytearray()

    def add(self, piece: bytes) -> None:
        self.held += piece

    def next(self) -> Union[None, Bad, Tuple[Any]]:
        """The next message as a tuple of one value; None if more bytes are needed."""
        end = self.held.find(END)
        if end < 0:
            if len(self.held) <= MOST_HEADER:
                return None
            del self.held[:-len(NAME)]
            return Bad("no header in many bytes")
        found = LENGTH.findall(bytes(self.held[:end]))
        length = int(found[-1]) if found else -1
        begin = end + len(END)
        if not 0 <= length <= MOST_BYTES:
            del self.held[:begin]
            return Bad(f"a header without a length from 0 to {MOST_BYTES:,}")
        if len(self.held) < begin + length:
            return None
        return self.body(begin, begin + length)

    def body(self, begin: int, end: int) -> Union[Bad, Tuple[Any]]:
        body = bytes(self.held[begin:end])
        try:
            value = json.loads(body.decode("utf-8"))
        except (ValueError, RecursionError):
            # A message that was cut has the next one's header in its body.
            inner = body.lower().find(NAME.lower())
            del self.held[:end if inner < 0 else begin + inner]
            return Bad("a body that is not JSON")
        del self.held[:end]
        return (value,)

    def skip_cut(self) -> bool:
        """Skips a message whose end does not come if the header of another one follows it; whether there was one."""
        end = self.held.find(END)
        inner = self.held.lower().find(NAME.lower(), end + 1) if end >= 0 else -1
        if inner < 0:
            return False
        del self.held[:inner]
        return True


def framed(message: Mapping[str, Any]) -> bytes:
    """A message with its header."""
    body = json.dumps({"jsonrpc": "2.0", **message}).encode("ascii")
    return b"Content-Length: %d\r\n\r\n%b" % (len(body), body)


def answer(number: Union[int, str, None], result: Any) -> Dict[str, Any]:
    return {"id": number, "result": result}


def error(number: Union[int, str, None], code: int, text: str) -> Dict[str, Any]:
    return {"id": number, "error": {"code": code, "message": text}}


def notification(method: str, params: Any) -> Dict[str, Any]:
    return {"method": method, "params": params}


def member(value: Any, *path: str) -> Any:
    """A member of nested objects; Wrong if there is none."""
    for name in path:
        if not isinstance(value, dict) or name not in value:
            raise Wrong(INVALID_PARAMS, f"the parameters have no {'.'.join(path)}")
        value = value[name]
    return value


def text_at(value: Any, *path: str) -> str:
    found = member(value, *path)
    if not isinstance(found, str):
        raise Wrong(INVALID_PARAMS, f"{'.'.join(path)} is not a string")
    return found


def number_at(value: Any, *path: str) -> int:
    """A number of the protocol's `uinteger`."""
    found = member(value, *path)
    if not isinstance(found, int) or isinstance(found, bool) or not 0 <= found < 1 << 31:
        raise Wrong(INVALID_PARAMS, f"{'.'.join(path)} is not a whole number from 0 to 2^31 - 1")
    return found


def list_at(value: Any, *path: str) -> List[Any]:
    found = member(value, *path)
    if not isinstance(found, list):
        raise Wrong(INVALID_PARAMS, f"{'.'.join(path)} is not a list")
    return found


def optional(value: Any, *path: str) -> Optional[Any]:
    """A member of nested objects; None if there is none."""
    for name in path:
        value = value.get(name) if isinstance(value, dict) else None
    return value
