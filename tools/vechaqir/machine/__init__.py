"""The state machines of leaf tasks, worked out from a source as the compiler makes them, and followed through a dump.

This is a second front end beside the proved one. It is there since a circuit's text names registers `x_0`, `x_1` and states by number: which variable and which line each is, for
names, profiles, pages and waveforms, has to be known from the source. Nothing that is proved uses it. The group `names` checks it: registers, states and acts beside the text that
`build` writes, of the examples, of tests/cases/circuits and of random tasks, and each cycle beside a dump of `cosim`; a dump that does otherwise is refused (`run.NotOfThisSource`).
"""
