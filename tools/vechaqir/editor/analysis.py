"""What a text declares, and which declaration each name of it stands for."""
import functools
from typing import Dict, Iterator, List, Optional, Set

from ..language import scopes
from ..language.lexemes import Place
from ..language.matching import View
from ..language.network import Instance, Network, elements, network
from ..language.scopes import Name
from ..language.source import parse
from ..language.syntax import Task

FILE_SORTS = ("constant", "task")
# Streams of an upper-level task and parameters that are streams.
STREAM_SORTS = ("stream", "istream", "ostream")
# The most top tasks whose networks are looked at.
TOPS = 4


class Analysis:
    """A text as it is read for one version of a document."""

    def __init__(self, text: bytes, path: Optional[str] = None) -> None:
        self.source = parse(text, path)
        self.nets: Dict[str, Network] = {}

    @functools.cached_property
    def view(self) -> View:
        return View(self.source)

    @functools.cached_property
    def by_text(self) -> Dict[str, List[Name]]:
        """The declarations of each text."""
        found: Dict[str, List[Name]] = {}
        for name in scopes.names(self.view):
            found.setdefault(name.name, []).append(name)
        return found

    @functools.cached_property
    def starts(self) -> Dict[Name, int]:
        return {name: self.behind_initialiser(name) for names in self.by_text.values() for name in names}

    def behind_initialiser(self, name: Name) -> int:
        """The lexeme from which on a name can be used."""
        at = name.at + 1
        if name.sort not in ("local", "array"):
            return name.begin
        while self.view.text(at) not in (",", ";", ")", "{", "}", ":", ""):
            at = self.view.close.get(at, at) + 1
        return at

    @functools.cached_property
    def attributes(self) -> Set[int]:
        """The lexemes in `[[ .. ]]`."""
        found: Set[int] = set()
        for at, end in self.view.close.items():
            if self.view.text(at) == "[" and self.view.text(at + 1) == "[" and self.view.close.get(at + 1) == end - 1:
                found.update(range(at, end + 1))
        return found

    # ---- names

    def word_at(self, offset: int) -> Optional[int]:
        """The lexeme of a name at an offset, or of one that ends there."""
        at = self.source.index_at(offset)
        for it in (at, at - 1):
            if 0 <= it < len(self.view.words) and self.view.words[it].kind == "name" and self.view.words[it].begin <= offset <= self.view.words[it].end:
                return it
        return None

    def is_use(self, at: int) -> bool:
        """Whether a lexeme may stand for a declared name: a name that is neither reserved nor a member of something."""
        return self.view.is_name(at) and self.view.text(at - 1) not in (".", "::", "->") and at not in self.attributes

    def declared(self, at: int) -> Optional[Name]:
        """The declaration for which a name stands; of the file a later one too, since the reader of a text that is being written looks for it."""
        if not self.is_use(at):
            return None
        may = self.by_text.get(self.view.text(at), [])
        own = next((it for it in may if it.at == at), None)
        if own:
            return own
        inner = [it for it in may if it.sort not in FILE_SORTS and self.starts[it] <= at < it.end]
        if inner:
            return max(inner, key=lambda it: it.at)
        outer = sorted((it for it in may if it.sort in FILE_SORTS), key=lambda it: (it.at > at, it.at))
        return outer[0] if outer else None

    def occurrences(self, name: Name) -> List[int]:
        """The lexemes that stand for a name, its declaration among them, in order."""
        return [at for at, word in enumerate(self.view.words) if word.text == name.name and self.declared(at) == name]

    # ---- tasks

    def task_of(self, name: Name) -> Optional[Task]:
        """The task that has a parameter, a stream or a variable."""
        return self.view.task(name.at) or next((task for task in self.source.tasks.values() if any(self.index(it.place) == name.at for it in task.parameters)), None)

    def index(self, place: Place) -> int:
        return self.source.index_at(self.source.lines.offset(place))

    def tops(self) -> List[str]:
        """The upper-level tasks that no other task invokes, in order; all upper-level tasks if each is invoked."""
        invoked = {invoke.task for task in self.source.tasks.values() for invoke in task.invokes}
        uppers = [it.name for it in self.source.tasks.values() if it.is_upper]
        return [it for it in uppers if it not in invoked] or uppers

    def networks(self) -> Iterator[Network]:
        for top in self.tops()[:TOPS]:
            if top not in self.nets:
                self.nets[top] = network(self.source, top)
            yield self.nets[top]

    def instances(self, task: str) -> List[Instance]:
        """The instances of a task in all networks."""
        return [it for net in self.networks() for it in net.instances + net.uppers if it.task == task]

    def flat_names(self, net: Network, task: Task, name: Name) -> List[str]:
        """The streams of a flat network for which a stream or a stream parameter of a task stands."""
        if name.sort != "stream":
            return [it.bindings[name.name] for it in net.instances + net.uppers if it.task == task.name and name.name in it.bindings]
        stream = next((it for it in task.streams if it.name == name.name), None)
        fronts = [""] if net.top == task.name else [f"{it.label}$" for it in net.uppers if it.task == task.name]
        return [front + element for front in fronts for element in (elements(stream) if stream else [])]
