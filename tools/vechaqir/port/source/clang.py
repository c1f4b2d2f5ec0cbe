"""libclang by Debian's Python binding: where it is, how a text is parsed, and what the binding leaves out."""
import ctypes
import functools
import importlib
import os
import re
from typing import Any, Iterator, List, Optional, Tuple

from ..faults import Unusable

PACKAGE = "python3-clang"
NAME = "ported.cpp"
INCLUDE = os.path.join(os.path.dirname(os.path.dirname(os.path.dirname(os.path.dirname(os.path.abspath(__file__))))), "include", "tapa_original")
INCLUDED = re.compile(r"^[ \t]*#[ \t]*include\b[^\n]*", re.M)
ARGUMENTS = ["-x", "c++", "-std=c++17", "-nostdinc", "-nostdinc++", "-include", "tapa.h", "-I", INCLUDE, "-Wno-everything", "-ferror-limit=0", "-ftemplate-depth=256"]
MISSING = f"libclang and its Python binding are needed to port a source: apt-get install {PACKAGE}"


class Ranges(ctypes.Structure):
    """A list of ranges as libclang gives it."""

    _fields_ = [("count", ctypes.c_uint), ("ranges", ctypes.c_void_p)]


@functools.lru_cache(maxsize=None)
def library() -> Any:
    """The module `clang.cindex`, with the functions of the library that it does not declare."""
    try:
        cindex: Any = importlib.import_module("clang.cindex")
    except ImportError:
        raise Unusable(MISSING) from None
    try:
        lib = cindex.conf.lib
    except Exception:
        raise Unusable(MISSING) from None
    lib.clang_Cursor_Evaluate.argtypes, lib.clang_Cursor_Evaluate.restype = [cindex.Cursor], ctypes.c_void_p
    lib.clang_EvalResult_getKind.argtypes = [ctypes.c_void_p]
    lib.clang_EvalResult_getAsLongLong.argtypes, lib.clang_EvalResult_getAsLongLong.restype = [ctypes.c_void_p], ctypes.c_longlong
    lib.clang_EvalResult_getAsDouble.argtypes, lib.clang_EvalResult_getAsDouble.restype = [ctypes.c_void_p], ctypes.c_double
    lib.clang_EvalResult_dispose.argtypes, lib.clang_EvalResult_dispose.restype = [ctypes.c_void_p], None
    lib.clang_getSkippedRanges.argtypes, lib.clang_getSkippedRanges.restype = [cindex.TranslationUnit, cindex.File], ctypes.POINTER(Ranges)
    return cindex


def is_there() -> bool:
    """Whether the binding and the library can be loaded."""
    try:
        library()
        return True
    except Unusable:
        return False


def without_includes(text: str) -> str:
    """A text of the same length in which no header is included."""
    return INCLUDED.sub(lambda it: " " * len(it[0]), text)


class Parsed:
    """A text as Clang reads it, with the declarations of `tapa.h` before it."""

    def __init__(self, text: str) -> None:
        self.text, self.cindex = text, library()
        given = without_includes(text).encode("latin-1")
        options = self.cindex.TranslationUnit.PARSE_DETAILED_PROCESSING_RECORD
        try:
            self.unit = self.cindex.Index.create().parse(NAME, args=ARGUMENTS, unsaved_files=[(NAME, given)], options=options)
        except self.cindex.TranslationUnitLoadError:
            raise Unusable("Clang cannot read this source") from None

    def faults(self) -> List[Tuple[int, str]]:
        """What Clang refuses: the offset and the sentence."""
        return [(it.location.offset if it.location.file and it.location.file.name == NAME else 0, it.spelling) for it in self.unit.diagnostics if it.severity >= 3]

    def is_own(self, cursor: Any) -> bool:
        """Whether a cursor is in the text itself, and not in a header."""
        file = cursor.location.file
        return file is not None and file.name == NAME

    def items(self) -> List[Any]:
        """The declarations of the text at its highest level, in their order."""
        return [it for it in self.unit.cursor.get_children() if not it.kind.is_preprocessing() and self.is_own(it)]

    def skipped(self) -> List[Tuple[int, int]]:
        """The ranges that conditional directives leave out."""
        found = self.cindex.conf.lib.clang_getSkippedRanges(self.unit, self.unit.get_file(NAME)).contents
        ranges = (self.cindex.SourceRange * found.count).from_address(found.ranges) if found.count else []
        return [(it.start.offset, it.end.offset) for it in ranges]


def span(cursor: Any) -> Tuple[int, int]:
    """The offsets of a cursor's first character and of the one after it."""
    extent = cursor.extent
    return extent.start.offset, extent.end.offset


def kids(cursor: Any) -> List[Any]:
    return list(cursor.get_children())


def walk(cursor: Any) -> Iterator[Any]:
    found: Iterator[Any] = cursor.walk_preorder()
    return found


def evaluated(cursor: Any, kind: int, read: str) -> Any:
    """What a constant expression is, where its value is of a kind of libclang."""
    if not cursor.kind.is_expression() or cursor.kind.is_reference():
        return None
    lib = library().conf.lib
    found = lib.clang_Cursor_Evaluate(cursor)
    if not found:
        return None
    number = getattr(lib, read)(found) if lib.clang_EvalResult_getKind(found) == kind else None
    lib.clang_EvalResult_dispose(found)
    return number


def value(cursor: Any) -> Optional[int]:
    """The value of a constant expression of whole numbers."""
    found: Optional[int] = evaluated(cursor, 1, "clang_EvalResult_getAsLongLong")
    return found


def real(cursor: Any) -> Optional[float]:
    """The value of a constant expression of floats."""
    found: Optional[float] = evaluated(cursor, 2, "clang_EvalResult_getAsDouble")
    return found
