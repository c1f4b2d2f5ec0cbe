"""From Clang's cursors to the tree."""
