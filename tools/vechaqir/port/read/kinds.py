"""Kinds of Clang's types."""
import re
from dataclasses import replace
from typing import Any, Dict, List, Optional, Tuple

from ..source.clang import kids, library, value
from ..tree.kinds import (BOOL, DOUBLE, FLOAT, FUNCTION, INT, INT8, INT16, INT64, LAMBDA, MANY, MEMORIES, SEQ, STREAMS, TASK, TEXT, UINT8, UINT16, UINT32, UINT64, VOID, Array, Carrier, Kind, Member,
                          Narrow, Plain, Record, Whole)
from .firsts import Firsts

WHOLE: Dict[str, Whole] = {"BOOL": BOOL, "CHAR_S": INT8, "CHAR_U": UINT8, "SCHAR": INT8, "UCHAR": UINT8, "SHORT": INT16, "USHORT": UINT16, "INT": INT, "UINT": UINT32, "LONG": INT64,
                           "ULONG": UINT64, "LONGLONG": INT64, "ULONGLONG": UINT64}
FLOATING = {"FLOAT": FLOAT, "DOUBLE": DOUBLE, "LONGDOUBLE": DOUBLE}
TYPE = re.compile(r"(?:const\s+)?(?:(?:std\s*::\s*)?(?:u?int(?:8|16|32|64)_t)|bool|int|short(?:\s+int)?|long(?:\s+long)?(?:\s+int)?|size_t|unsigned(?:\s+(?:short|long(?:\s+long)?))?(?:\s+int)?)")


def bare(kind: Any) -> Any:
    """A type without references and names."""
    kind = kind.get_canonical()
    return bare(kind.get_pointee()) if kind.kind.name in ("LVALUEREFERENCE", "RVALUEREFERENCE") else kind


def is_reference(kind: Any) -> bool:
    return kind.get_canonical().kind.name in ("LVALUEREFERENCE", "RVALUEREFERENCE")


def is_const(kind: Any) -> bool:
    """Whether what a type names cannot be assigned."""
    inner = bare(kind)
    while inner.kind.name in ("CONSTANTARRAY", "INCOMPLETEARRAY") and not inner.is_const_qualified():
        inner = inner.element_type.get_canonical()
    return bool(inner.is_const_qualified())


def numbers(kind: Any) -> List[int]:
    """The numbers among the arguments of a template, from the spelling of a type."""
    return arguments(kind.spelling)[1]


def arguments(spelling: str) -> Tuple[List[str], List[int]]:
    """The arguments in the first `< >` of a type, and those of them that are numbers."""
    begin = spelling.find("<")
    depth, parts, start = 0, [], begin + 1
    for at in range(begin, len(spelling)):
        it = spelling[at]
        depth += (it in "<(") - (it in ">)")
        if depth == 1 and it == "," or depth == 0:
            parts.append(spelling[start:at].strip())
            start = at + 1
        if depth == 0:
            break
    return parts, [int(it.rstrip("uUlL")) for it in parts if re.fullmatch(r"-?\d+[uUlL]*", it)]


class Kinds:
    """The kinds of a text; those of structs are read once."""

    def __init__(self) -> None:
        self.records: Dict[str, Record] = {}
        self.cursors: Dict[str, Any] = {}
        self.firsts = Firsts()

    def of(self, kind: Any) -> Kind:
        it = bare(kind)
        name = it.kind.name
        if name in WHOLE:
            return WHOLE[name]
        if name in FLOATING:
            return FLOATING[name]
        if name == "ENUM":
            inner = self.of(it.get_declaration().enum_type)
            return INT if inner == UINT32 and not it.get_declaration().is_scoped_enum() and ":" not in first_line(it.get_declaration()) else inner
        if name == "VOID":
            return VOID
        if name == "CONSTANTARRAY":
            return Array(self.of(it.element_type), it.element_count)
        if name == "INCOMPLETEARRAY":
            return Array(self.of(it.element_type), 0)
        if name == "POINTER":
            return self.pointer(it.get_pointee().get_canonical())
        if name in ("FUNCTIONPROTO", "FUNCTIONNOPROTO"):
            return FUNCTION
        return self.record(it) if name == "RECORD" else Plain(it.spelling)

    def pointer(self, inner: Any) -> Kind:
        """A pointer as a parameter is an array whose length is not written."""
        if inner.kind.name in ("FUNCTIONPROTO", "FUNCTIONNOPROTO"):
            return FUNCTION
        return TEXT if inner.kind.name == "CHAR_S" and inner.is_const_qualified() else Array(self.of(inner), 0)

    def record(self, it: Any) -> Kind:
        declaration = it.get_declaration()
        parent = declaration.semantic_parent.spelling if declaration.semantic_parent is not None else ""
        word = declaration.spelling
        if parent == "tapa" and word in (*STREAMS, *MANY, *MEMORIES):
            found = numbers(it) if word in MANY or word == "stream" else []
            element = it.get_template_argument_type(0)
            length = found[0] if word in MANY and found else 0
            depth = found[-1] if found and word in ("stream", "streams") and (word == "stream" or len(found) > 1) else 2
            return Carrier(word, self.of(element), length, depth, bool(element.get_canonical().is_const_qualified()))
        if parent == "tapa" and word in ("task", "seq"):
            return TASK if word == "task" else SEQ
        if word == "ap_value":
            parts, width = arguments(it.spelling)
            return Narrow(width[0] if width else 64, parts[-1] in ("true", "1"))
        if "(lambda at" in it.spelling:
            return LAMBDA
        return self.struct(it, declaration)

    def struct(self, it: Any, declaration: Any) -> Record:
        name = it.spelling.replace("const ", "", 1) if it.spelling.startswith("const ") else it.spelling
        if name not in self.records:
            self.records[name] = Record(name, (), 0, "it is within itself")
            fields = list(it.get_fields())
            members = tuple(self.member(it, each) for each in fields)
            self.records[name] = Record(name, members, 8 * it.get_size() if it.get_size() > 0 else 0, self.why_not(it, declaration, fields))
            self.cursors[name] = declaration
            self.records[name] = replace(self.records[name], first=self.firsts.of_struct(self.records[name], declaration))
        return self.records[name]

    def member(self, it: Any, field: Any) -> Member:
        bits = field.get_bitfield_width() if field.is_bitfield() else None
        kind = self.of(field.type)
        if bits is not None and isinstance(kind, Whole) and bits < kind.bits:   # it is cut at each assignment, as an `ap_uint` is
            kind = Narrow(bits, kind.is_signed)
        return Member(field.spelling, kind, it.get_offset(field.spelling), bits, self.firsts.of_field(field, kind))

    def why_not(self, it: Any, declaration: Any, fields: List[Any]) -> str:
        """What of a struct cannot be ported."""
        kind = library().CursorKind
        if it.get_size() <= 0 and not fields:
            return ""
        if any(each.kind == kind.CXX_BASE_SPECIFIER for each in kids(declaration)):
            return "it has a base"
        if declaration.kind == kind.UNION_DECL:
            return "it is a union"
        if any(not each.spelling for each in fields):
            return "a field has no name"
        unfit = next((each for each in fields if isinstance(self.of(each.type), (Plain, Carrier)) or is_reference(each.type) or each.type.get_canonical().kind.name == "POINTER"), None)
        return f"its field `{unfit.spelling}` has no kind of values" if unfit is not None else ""


def first_line(declaration: Any) -> str:
    """The words of an enumeration up to its brace."""
    out = []
    for it in declaration.get_tokens():
        if it.spelling == "{":
            break
        out.append(it.spelling)
    return " ".join(out)


def is_word(text: str) -> bool:
    """Whether a text is a kind in the words of the language."""
    return TYPE.fullmatch(text.strip()) is not None


def constant(cursor: Any) -> Optional[int]:
    return value(cursor)
