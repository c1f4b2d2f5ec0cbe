"""The check of a port: the original as a native program, the ported source by `tapa run`, and both reports side by side."""
