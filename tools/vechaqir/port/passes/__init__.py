"""What changes a tree, one rule of C++ a module, until it is one of the language."""
