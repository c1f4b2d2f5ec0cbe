"""The program `tapa` from Python: how it is called, what it reads (data, devices) and what it prints (reports, plans, dumps)."""
