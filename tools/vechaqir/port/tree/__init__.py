"""A source as a tree of its own: kinds of values, expressions, statements, tasks, and what walks over them."""
