"""A chain of processing elements for local alignment (Smith and Waterman): each keeps a letter of a query, and a text goes through all of them."""
from families.parts import Design, numbers, tasks

QUERY, TEXT = 64, 40
MATCH, OTHER, GAP = 3, -2, -2

TASKS = tasks("chain", TEXT=TEXT, MATCH=MATCH, OTHER=OTHER, GAP=GAP)


def alignment(query, text):
    """The greatest score of a local alignment."""
    row, most = [0] * len(text), 0
    for mine in query:
        left = corner = 0
        for at, letter in enumerate(text):
            up = row[at]
            left = max(0, corner + (MATCH if letter == mine else OTHER), up + GAP, left + GAP)
            corner, row[at] = up, left
            most = max(most, left)
    return most


def design():
    """The score of a text beside a query; one letter more than the query has goes through, for the end of the chain."""
    query, text = numbers(QUERY, 5, 4), numbers(TEXT, 6, 4)
    lines = ["query", "letters", "scores", "best"]
    invokes = [f"LoadQuery, q, {QUERY + 1}, query[0]", "LoadText, t, letters[0], scores[0], best[0]"]
    for at in range(QUERY):
        invokes.append("Cell, " + ", ".join([f"{line}[{at}]" for line in lines] + [f"{line}[{at + 1}]" for line in lines] + [str(QUERY - at)]))
    invokes.append("Store, " + ", ".join(f"{line}[{QUERY}]" for line in lines) + ", m")
    streams = [f"tapa::streams<uint8_t, {QUERY + 1}> query, letters", f"tapa::streams<int, {QUERY + 1}> scores, best"]
    data = {"memories": {"q": query + [0], "t": text, "m": [0]}}
    return Design(TASKS, "tapa::mmap<const uint8_t> q, tapa::mmap<const uint8_t> t, tapa::mmap<int> m", streams, invokes, data, {"m": [alignment(query, text)]})
