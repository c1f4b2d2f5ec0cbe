"""Why each rule is there, in a sentence: by its code, and of constructs that the language leaves out by their names in docs/FROM_TAPA.md."""
from .. import tables

REASONS = {rule: reason for reason, *rules in tables.rows("explain/reasons.rows") for rule in rules}


def of(code: str, construct: str = "") -> str:
    """The reason of a rule; the empty text if there is none to be given."""
    return REASONS.get(construct, REASONS.get(code, ""))
