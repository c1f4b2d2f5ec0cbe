"""A language server for TAPA sources (docs/EDITORS.md): diagnostics of the program itself, hover, definitions, references, rename and completion."""
