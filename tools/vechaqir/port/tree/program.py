"""Variables, functions and the program."""
from dataclasses import dataclass, field
from typing import Dict, List, Optional, Set, Tuple

from ..faults import Mark, Note
from ..source.mapped import Mapped
from .kinds import Kind, Record
from .nodes import Expression
from .statements import Block


@dataclass(eq=False)
class Variable:
    """A variable, known by itself and not by its name. `role` is `local`, `parameter`, `stream`, or `constant` for one of the file, which has a value."""

    name: str
    kind: Kind
    role: str = "local"
    is_const: bool = False
    is_reference: bool = False
    at: int = -1
    # the offset of its name in the text
    spot: int = -1
    value: Optional[int] = None
    first: Optional[Expression] = None
    # what it is made of: the original variable, the element of an array of streams, and the word
    origin: Optional[Tuple["Variable", Optional[int], Optional[int]]] = None

    def __repr__(self) -> str:
        return f"<{self.name}>"


@dataclass(eq=False)
class Function:
    """A function, method or lambda, or one instance of a template."""

    name: str
    result: Kind
    parameters: List[Variable] = field(default_factory=list)
    body: Optional[Block] = None
    at: int = -1
    end: int = -1
    text: Optional[str] = None
    is_reference: bool = False
    is_instance: bool = False
    # of a constructor the fields that are filled before its body
    filled: List[Tuple[str, Expression]] = field(default_factory=list)
    is_constructor: bool = False
    is_own: bool = True
    key: object = None
    # its name in the source
    word: str = ""

    def __repr__(self) -> str:
        return f"<{self.name}>"


@dataclass
class Item:
    """A declaration of the file: where it is in the text; a constant or the tasks that it becomes, or nothing."""

    begin: int
    end: int
    variable: Optional[Variable] = None
    functions: List[Function] = field(default_factory=list)
    constants: List[Variable] = field(default_factory=list)
    # a brace of a namespace goes, but not what is around it
    is_brace: bool = False
    text: Optional[str] = None


@dataclass
class Argument:
    """A parameter of the top task as the source has it: its variable, the word of `tapa` or an empty text, and how C++ writes its element and its type."""

    variable: Variable
    sort: str
    element: str
    kind: str
    length: int


@dataclass
class Program:
    """A source as a tree: its text, its items in their order, its tasks, and what passes tell."""

    source: Mapped
    top: Function
    items: List[Item] = field(default_factory=list)
    tasks: List[Function] = field(default_factory=list)
    helpers: List[Function] = field(default_factory=list)
    constants: List[Variable] = field(default_factory=list)
    notes: List[Note] = field(default_factory=list)
    marks: List[Mark] = field(default_factory=list)
    # the top task's parameters, the streams, the structs and the functions that Clang refuses, as the source has them
    arguments: List[Argument] = field(default_factory=list)
    streams: List[Variable] = field(default_factory=list)
    records: List[Record] = field(default_factory=list)
    left_out: List[Tuple[int, int]] = field(default_factory=list)
    # variables of the source that nothing needs any more
    gone: Set[Variable] = field(default_factory=set)
    # variables that have got another name
    renamed: Dict[Variable, Variable] = field(default_factory=dict)

    def note(self, at: int, construct: str, becomes: str) -> None:
        """Tells what is done; once a line and construct."""
        if at >= 0:
            it = Note(*self.source.place(at), construct, becomes)
            if it not in self.notes:
                self.notes.append(it)

    def mark(self, at: int, why: str, instead: str) -> Mark:
        """Tells what is left to change."""
        it = Mark(*self.source.place(at), why, instead)
        if it not in self.marks:
            self.marks.append(it)
        return it
