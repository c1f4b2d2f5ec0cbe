"""From a TAPA source to one of the language that `tapa` accepts (tools/port.py).

`source` makes one text of it, without headers of its own, conditional directives and macros, which libclang parses; `read` makes a tree of what the top task needs; `passes` change the tree, one rule of C++ a
module; `write` makes the text, in which what no pass touched is as it was written; `check` compares the original, compiled by g++, with the ported source, run by `tapa`.
"""
