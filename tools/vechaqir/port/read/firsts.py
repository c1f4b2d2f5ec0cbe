"""The values with which the fields of structs begin: those that are written after a field, and those that a constructor without arguments gives."""
from typing import Any, Dict, List, Optional

from ..faults import Refused
from ..source.clang import kids, library, real, value
from ..tree.kinds import FLOAT, INT, Array, First, Floating, Kind, Narrow, Plain, Record, Whole
from ..tree.lists import spread
from ..tree.nodes import Braces, Expression, Number

LIST = Plain("list")
Names = Dict[str, Optional[Expression]]


def expressions(cursor: Any) -> List[Any]:
    return [it for it in kids(cursor) if it.kind.is_expression()]


class Firsts:
    """The first values of the fields of one text."""

    def __init__(self) -> None:
        self.sort = library().CursorKind

    def of_field(self, field: Any, kind: Kind) -> First:
        """The value that is written after a field."""
        parts = [it for it in expressions(field) if it.extent.start.offset > field.location.offset]
        if field.is_bitfield():
            parts = parts[1:]
        elif isinstance(kind, Array):
            parts = [it for it in parts if it.kind == self.sort.INIT_LIST_EXPR]
        return self.first(kind, self.known(parts[-1], {})) if parts else 0

    def of_struct(self, kind: Record, declaration: Any) -> First:
        """What the constructor without arguments gives, where the source has one."""
        for it in kids(declaration):
            if it.kind == self.sort.CONSTRUCTOR and not it.is_default_method() and all(expressions(each) for each in it.get_arguments()):
                return self.constructed(kind, it)
        return 0

    def constructed(self, kind: Record, maker: Any) -> First:
        """The values that a constructor gives to the fields, by its list and by assignments in its body."""
        names = {it.spelling: self.known(expressions(it)[-1], {}) for it in maker.get_arguments()}
        parts = kids(maker)
        filled = {field.spelling: self.known(first, names) for field, first in zip(parts, parts[1:]) if field.kind == self.sort.MEMBER_REF and first.kind.is_expression()}
        body = next((it for it in parts if it.kind == self.sort.COMPOUND_STMT), None)
        for it in kids(body) if body is not None else [maker]:
            sides = kids(it)
            if it.kind != self.sort.BINARY_OPERATOR or len(sides) != 2 or sides[0].kind != self.sort.MEMBER_REF_EXPR:
                return None
            filled[sides[0].spelling] = self.known(sides[1], names)
        return tuple(self.first(it.kind, filled[it.name]) if it.name in filled else it.first for it in kind.members)

    def known(self, cursor: Any, names: Names) -> Optional[Expression]:
        """A number, or a list of some; None if it is no constant. `names` are the parameters of the constructor around it."""
        is_struct = cursor.type.get_canonical().kind.name in ("RECORD", "CONSTANTARRAY")
        inner = expressions(cursor)
        if is_struct and (cursor.kind == self.sort.INIT_LIST_EXPR or not inner):
            values = [self.known(it, names) for it in inner]
            return None if None in values else Braces(LIST, tuple(it for it in values if it is not None))
        found, other = value(cursor), real(cursor)
        if found is not None:
            return Number(INT, found)
        if other is not None:
            return Number(FLOAT, other)
        if cursor.kind == self.sort.DECL_REF_EXPR:
            return names.get(cursor.spelling)
        return self.known(inner[0], names) if len(inner) == 1 and (is_struct or cursor.kind == self.sort.UNEXPOSED_EXPR) else None

    def first(self, kind: Kind, it: Optional[Expression]) -> First:
        """A constant as a value of a kind."""
        if isinstance(it, Braces) and not it.values:
            return 0
        if isinstance(kind, (Record, Array)):
            if not isinstance(it, Braces):
                return None
            kinds = [each.kind for each in kind.members] if isinstance(kind, Record) else [kind.element] * kind.length
            try:
                return tuple(self.first(inner, each) for inner, each in zip(kinds, spread(Braces(kind, it.values))))
            except Refused:
                return None
        if not isinstance(it, Number) or not isinstance(kind, (Whole, Narrow, Floating)):
            return None
        return float(it.value) if isinstance(kind, Floating) else Whole(kind.bits, kind.is_signed).wrapped(int(it.value))
