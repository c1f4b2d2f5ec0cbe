"""A TAPA source as text: its words, headers, conditional directives and macros, and Clang's reading of it."""
