"""Where the grammar of docs/LANGUAGE.md refuses a source: a recogniser by Earley's method, which knows the page's productions and limits and nothing else.

It goes from lexeme to lexeme with every reading of the text so far. A lexeme that no reading takes is P1; one that is taken and opens a level or is an operator too many is P2."""
from typing import Dict, FrozenSet, List, NamedTuple, Optional, Set, Tuple

from runner.second import grammar
from vechaqir.language import lexemes


class Around(NamedTuple):
    """What stands around a part: how many levels are open, and how many operators the source had where the outermost expression around it begins, if there is one."""

    levels: int
    before: Optional[int]


class State(NamedTuple):
    """A place in a production: the part, the next symbol (empty at its end), the state behind it, the levels that are open before and behind it, whether it is an
    operator, and the lexemes that may come first from here on (none are told where nothing has to come)."""

    part: str
    symbol: str
    behind: int
    levels: int
    levels_behind: int
    is_operator: bool
    firsts: Optional[FrozenSet[str]]


# A reading of a part: the number of its state, the lexeme that it begins with, and what stands around it.
Item = Tuple[int, int, Around]


def first_lexemes(of: grammar.Grammar) -> Dict[str, Set[str]]:
    """For each part, the lexemes with which it may begin."""
    firsts: Dict[str, Set[str]] = {part: set() for part in of.productions}
    is_new = True
    while is_new:
        count = sum(map(len, firsts.values()))
        for part, productions in of.productions.items():
            for production in productions:
                firsts[part] |= firsts_of(of, firsts, production.symbols)[0]
        is_new = sum(map(len, firsts.values())) > count
    return firsts


def firsts_of(of: grammar.Grammar, firsts: Dict[str, Set[str]], symbols: Tuple[str, ...]) -> Tuple[Set[str], bool]:
    """The lexemes with which symbols may begin, and whether all of them may be empty."""
    found: Set[str] = set()
    for symbol in symbols:
        found |= firsts.get(symbol, {symbol})
        if symbol not in of.repeated:
            return found, False
    return found, True


class Recogniser:
    def __init__(self, of: grammar.Grammar) -> None:
        self.of = of
        self.states: List[State] = []
        self.firsts = first_lexemes(of)
        self.begins: Dict[str, List[int]] = {part: [self.place(part, it) for it in productions] for part, productions in of.productions.items()}

    def place(self, part: str, production: grammar.Production) -> int:
        """Puts the states of a production; answers the first one's number."""
        first, levels = len(self.states), grammar.opened(production)
        for at, symbol in enumerate(production.symbols):
            firsts, may_be_empty = firsts_of(self.of, self.firsts, production.symbols[at:])
            is_operator = grammar.is_operator(self.of, production, at)
            self.states.append(State(part, symbol, first + at + 1, levels[at], levels[at + 1], is_operator, None if may_be_empty else frozenset(firsts)))
        self.states.append(State(part, "", 0, 0, 0, False, None))
        return first

    def terminal(self, words: List[lexemes.Lexeme], at: int) -> str:
        """What the grammar calls a lexeme: `name`, `literal`, `string`, or the word itself in quotation marks."""
        word = words[at]
        if word.kind == "number" or word.kind == "text":
            return "literal" if word.kind == "number" else "string"
        texts = [it.text for it in words[max(at - 2, 0):at]]
        is_word = word.text in self.of.reserved or (texts[-1:] == ["."] or texts == ["tapa", "::"]) and word.text in self.of.reserved_behind
        return "name" if word.kind == "name" and not is_word else f'"{word.text}"'

    def told(self, source: bytes) -> str:
        """`P1 LINE:COLUMN`, `P2 LINE:COLUMN`, or nothing where the source is a file of the grammar within the limits."""
        words = lexemes.words(lexemes.every(source))
        lines = lexemes.Lines(source)
        reading = Reading(self)
        for at, word in enumerate(words):
            code = reading.take(self.terminal(words, at))
            if code:
                return "{} {}:{}".format(code, *lines.place(word.begin))
        return "" if reading.is_file() else "P1 {}:{}".format(*lines.place(len(source)))


class Reading:
    """A source, lexeme by lexeme: the readings that its front has."""

    def __init__(self, recogniser: Recogniser) -> None:
        self.recogniser, self.of, self.states = recogniser, recogniser.of, recogniser.states
        self.operators = 0
        self.whole = Around(0, None)
        # for each front of the text, the readings that wait for a part from there on
        self.waiting: List[Dict[Tuple[str, Around], List[Item]]] = []
        self.next: List[Item] = [(first, 0, self.whole) for first in recogniser.begins["file"]]
        self.is_end = False

    def take(self, terminal: str) -> str:
        """Goes on over a lexeme. Answers P1 where no file begins so, P2 where the lexeme passes a limit, and else nothing."""
        taking = self.closed(terminal)
        if terminal == '"else"' and taking:
            # it belongs to the nearest open `if`, which is the one with most levels around it
            deepest = max(around.levels for _, _, around in taking)
            taking = [it for it in taking if it[2].levels == deepest]
        if not taking:
            return "P1"
        is_operator = any(self.states[number].is_operator for number, _, _ in taking)
        self.operators += is_operator
        self.next = [(self.states[number].behind, begin, around) for number, begin, around in taking]
        return "P2" if any(self.passes(it) for it in taking) else ""

    def passes(self, item: Item) -> bool:
        """Whether a reading that takes the lexeme has too many levels open at it, or too many operators in an expression up to it."""
        number, _, around = item
        is_deep = around.levels + self.states[number].levels_behind > self.of.levels
        return is_deep or self.states[number].is_operator and around.before is not None and self.operators - around.before > self.of.operators

    def is_file(self) -> bool:
        """Whether the text so far is a file."""
        self.closed("")
        return self.is_end

    def closed(self, terminal: str) -> List[Item]:
        """The readings that may take a lexeme here, once all parts that end here have gone on and all that may begin here have begun."""
        self.waiting.append({})
        self.is_end = False
        taking: List[Item] = []
        found: Set[Item] = set()
        todo = list(self.next)
        while todo:
            item = todo.pop()
            _, symbol, _, _, _, _, firsts = self.states[item[0]]
            if item in found or firsts is not None and terminal not in firsts:
                continue
            found.add(item)
            if not symbol:
                todo += self.ended(item)
            elif symbol in self.of.productions:
                todo += self.begun(item, symbol)
            elif symbol == terminal:
                taking.append(item)
        return taking

    def ended(self, item: Item) -> List[Item]:
        """A part ends: those that wait for it go on."""
        number, begin, around = item
        part = self.states[number].part
        self.is_end = self.is_end or part == "file"
        return [(self.states[waiting].behind, first, outer) for waiting, first, outer in self.waiting[begin].get((part, around), [])]

    def begun(self, item: Item, part: str) -> List[Item]:
        """A part is waited for: each of its productions begins, once for what stands around it; one that may be empty is at its end, too."""
        number, begin, around = item
        here = len(self.waiting) - 1
        inner = self.inner(around, self.states[number], part)
        waiting = self.waiting[here].setdefault((part, inner), [])
        waiting.append(item)
        more = [(first, here, inner) for first in self.recogniser.begins[part]] if len(waiting) == 1 else []
        if part in self.of.repeated:
            more.append((self.states[number].behind, begin, around))
        return more

    def inner(self, around: Around, state: State, part: str) -> Around:
        """What stands around a part that is waited for: a statement opens a level, and an expression that is in no other counts its own operators."""
        levels = around.levels + state.levels + (part == grammar.STATEMENT)
        is_outermost = around.before is None and part in (grammar.CONDITIONAL, grammar.SUM)
        return Around(levels, self.operators if is_outermost else around.before)
