"""Records what a program shows: of the mistakes in tests/cases/mistakes, whose files are to be read before they are kept; and the circuits of tests/cases/circuits with what they are to
show, which go to crates/vlog_tests/stdin and stdout.

The circuits are recorded after a change of what `build` prints or of a source there; the texts by hand that stand in front stay as they are. The runner checks that both files are so.
"""
import os
from pathlib import Path

from runner.groups import reference
from runner.trial import ROOT, Trial


def record_mistakes(words):
    """Records all mistakes; the only word is the program."""
    from runner.groups import mistakes
    if len(words) != 1 or not os.access(words[0], os.X_OK):
        return 2
    trial = Trial(words[0], is_whole=False)
    trial.begin("mistakes")
    for path in mistakes.paths():
        found = [mistake.text(mistakes.shown_of(trial, mistake)) for mistake in mistakes.mistakes(path)]
        Path(path).write_text("".join(found), encoding="utf-8")
    trial.folder.cleanup()
    return 0


def record_circuits(words):
    """Records the circuits; the only word is the program."""
    if len(words) != 1:
        return 2
    for path, text in zip((reference.STDIN, reference.STDOUT), reference.files(Trial(words[0]))):
        Path(ROOT, path).write_text(text, encoding="utf-8")
    return 0
