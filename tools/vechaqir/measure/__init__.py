"""Where a circuit's cycles go, what would make it faster, and a testbench that checks it."""
