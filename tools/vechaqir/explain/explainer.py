"""Explains what `tapa` reports on standard error: below each message what it means, why, and what to write instead."""
import os
import re
from typing import BinaryIO, Callable, Dict, List, Mapping, Optional

from ..host import estimate
from ..host.program import Program
from ..language.lexemes import Place
from ..language.network import Network, network
from ..language.source import Source, parse
from . import after, data, depths, device, end, files, limits, messages, pages, refusals, replay, statuses, usage
from .base import Why, few
from .command import Command, contents
from .messages import Message
from .places import in_source, placed, shown_line
from .refusals import lines_of
from .replay import Given

STOPPED_TICKS = 20_000_000


class Explainer:
    """Explains the messages of one call; files are read once. With a program it can be asked which resource is short if it finds no plan. `given` are the bytes of names that
    cannot be read again, as of standard input, and `is_module` says that these are arguments of the Python module."""

    def __init__(self, command: Command, program: Optional[Program] = None, given: Optional[Mapping[str, bytes]] = None, is_module: bool = False) -> None:
        self.command, self.program = command, program
        self.given, self.is_module = given or {}, is_module
        self.waits: List[Message] = []
        self.sources: Dict[str, Optional[Source]] = {}

    def contents(self, path: Optional[str]) -> Optional[bytes]:
        return self.given[path] if path is not None and path in self.given else contents(path)

    def source(self, path: Optional[str]) -> Optional[Source]:
        if path is None:
            return None
        if path not in self.sources:
            text = self.contents(path)
            self.sources[path] = None if text is None else parse(text, path)
        return self.sources[path]

    def network(self) -> Optional[Network]:
        found, top = self.source(self.command.source), self.command.top
        return network(found, top) if found and top and top in found.tasks else None

    # ---- one message

    def safely(self, line: str) -> List[str]:
        """The lines below a message; if explaining fails, which it should not, a line that says so."""
        try:
            return self.explained(line)
        except Exception as why:  # pylint: disable=broad-except
            return [f"      = no explanation: {type(why).__name__} in tools/explain.py"]

    def explained(self, line: str) -> List[str]:
        """The lines below a message."""
        message = messages.parse(line)
        if message is None:
            return []
        if message.sort == "waits":
            self.waits.append(message)
            return []
        if message.sort == "place":
            return self.at_place(message)
        if message.sort == "key":
            return self.at_key(message)
        if message.sort == "usage":
            return usage.explained(self.command.words)
        return self.status(message)

    def at_place(self, message: Message) -> List[str]:
        told = message.place or Place(1, 1)
        wanted = files.BY_LETTER.get(message.code[0])
        other = files.other_sort(wanted, self.contents(message.file)) if wanted else []
        if other:
            return other + self.swapped()
        source = self.source(message.file)
        if source is None or message.code in ("V1", "X1"):
            text = self.contents(message.file)
            shown = [] if text is None else shown_line(text.split(b"\n")[told.line - 1:told.line], told)
            return shown + refusals.general(message.code)
        place, word = in_source(source, told, message.code)
        is_top = message.code == "C1" and told == Place(1, 1) and self.command.top not in source.tasks
        lines = [] if is_top else shown_line([source.lines.line(place.line)], place)
        lines += [f"      = in the text with its arrays expanded: {told.line}:{told.column} (`{pages.tool('written_out.py')}` shows it)"] * (place != told)
        _, more = refusals.explained(source, place, message.code, message.text, self.command.top, word)
        return lines + more

    def at_key(self, message: Message) -> List[str]:
        """A code with a key: of a data or device file, or a name of a Verilog text or a dump."""
        if message.code == "X2":
            return lines_of(self.no_net(message), message.code)
        if message.code[0] in "VX":
            return refusals.general(message.code, message.text)
        is_device = self.command.device == message.file if self.command.words else device.looks_like_device(message.text)
        is_none = message.file == "{}" and self.command.data is None and not is_device
        text = None if is_none else self.contents(message.file)
        given = data.Given(message.file, text, self.network(), is_device or message.code[0] == "K", self.command.source or "F.cpp", self.is_module and message.file in self.given)
        wanted, takes = (files.DEVICE, "") if given.is_device else (files.DATA, "call " + given.template())
        other = files.other_sort(wanted, given.data, takes) if message.code in ("J1", "J2") else []
        if other:
            return other + self.swapped() + [f"      = {given.page}"]
        why: Optional[Why] = (device.why if given.is_device else data.why)(message.code, message.text, given) if text is not None or is_none else None
        shown = data.shown_fault(given.data) if message.code == "J1" and given.data else []
        return shown + (lines_of(why, message.code) if why else refusals.general(message.code))

    def swapped(self) -> List[str]:
        """Words in another order than the command takes them."""
        return files.swapped(self.command.plain, self.command.names)

    def status(self, message: Message) -> List[str]:
        """A message without a place."""
        limit = limits.limit(message.line, limits.Asked(self.source(self.command.source), self.network(), self.run(), self.is_module))
        if limit:
            return limit
        if message.line.startswith("tapa: cannot read "):
            return self.unreadable(message.line[len("tapa: cannot read "):])
        is_file = self.command.device not in self.given
        known = statuses.explained(message.line, self.command, self.shortage() if "plan" in message.line or " room " in message.line or "halving" in message.line else [], is_file)
        return known or [f"      = {it}" for it in pages.status(message.line) or []]

    def shortage(self) -> List[str]:
        """Which resource is short if there is no plan, by the program's own estimates."""
        source, top, path = self.command.source, self.command.top, self.command.device
        if self.program is None or not source or not top or not path or path in self.given:
            return []
        return estimate.shortage(self.program, source, top, path)

    def no_net(self, message: Message) -> Why:
        """A dump without the net that is asked for."""
        nets = [it.decode("utf-8", "replace") for it in re.findall(rb"^\$var \w+ \d+ \S+ (\S+) \$end", self.contents(message.file) or b"", re.M)]
        return Why([f"the dump has no net `{message.text}`: it has {len(nets)} nets, {few(nets, 12)}"], "name one of its nets", [], "", "a dump has the nets of the top module")

    def unreadable(self, path: str) -> List[str]:
        """Why a file cannot be read."""
        command, page = self.command, "      = docs/COMMAND.md"
        if os.path.isdir(path):
            return [f"      = `{path}` is a folder", "      = instead: name a file in it", page]
        if os.path.exists(path):
            return [f"      = `{path}` is there, and the system refuses to read it", "      = instead: look at its rights, and at the disk", page]
        lines = [f"      = there is no file `{path}` in {os.getcwd()}" if not os.path.isabs(path) else f"      = there is no file `{path}`"] + self.swapped()
        if command.words and path in command.words and command.words[command.words.index(path) - 1] == "--vcd":
            return lines + ["      = why: `--vcd` has no value, so this word is the data file", f"      = instead: send the dump from standard output to the file: `--vcd > {path}`", page]
        if path == command.data and command.source and command.top:
            return lines + [f"      = instead: call `{pages.tool('template.py')} {command.source} {command.top} > {path}`, which writes a data file to fill in", page]
        return lines + ["      = instead: " + ("give the words in this order" if len(lines) > 1 else "look at its name, and at the folder in which the command is called"), page]

    def run(self) -> Optional[Given]:
        """What the run of the command has, if all of it can be read again."""
        command = self.command
        if command.name not in ("run", "cosim") or not command.source or not command.top:
            return None
        text = self.contents(command.data) if command.data else b"{}"
        is_empty = not command.data or text is not None and text.strip() == b"{}"
        words = [command.source, command.top] + ([] if is_empty else ["DATA"] if command.data in self.given else [command.data or ""])
        return replay.given(self.source(command.source), self.network(), text, words)

    def ended(self, status: Optional[int] = None) -> List[str]:
        """The lines after the last message; with the status 0 of a run those on what it passed over."""
        try:
            if self.waits:
                return self.stopped() + ["      = docs/REFUSALS.md, Deadlock"]
            run = self.run() if status == 0 and self.command.name == "run" else None
            return after.done(run) if run else []
        except Exception as why:  # pylint: disable=broad-except
            return [f"      = no explanation: {type(why).__name__} in tools/explain.py"]

    def stopped(self) -> List[str]:
        found = self.network()
        if found is None:
            return []
        run = self.run()
        outcome = replay.replay(run, STOPPED_TICKS) if run else None
        running = replay.instances(outcome) if outcome and outcome.end == "stopped" else {}
        is_full = any(it.text == "waits to write" for it in self.waits) and not any(it.text == "bad token on" for it in self.waits)
        ending = depths.ending(run, self.program) if run and outcome and running and is_full else None
        return end.stopped(end.Stop(self.waits, found, running, run.words if run else ""), ending)


def run(given: BinaryIO, out: Callable[[bytes], None], command: Command) -> None:
    """Passes each line on as it is, with its explanation below it."""
    explainer = Explainer(command)
    for line in given:
        out(line if line.endswith(b"\n") else line + b"\n")
        for it in explainer.safely(line.decode("utf-8", "surrogateescape").rstrip("\n")):
            out((it + "\n").encode("utf-8", "replace"))
    for it in explainer.ended():
        out((it + "\n").encode("utf-8", "replace"))


__all__ = ["Command", "Explainer", "contents", "in_source", "placed", "run"]
