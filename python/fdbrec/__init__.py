"""fdbrec in Python: a judge of journals, a page and a picture of a run, and clusters of processes to play with.

`python3 -m fdbrec COMMAND` runs them; nothing here needs a built program, but for `fdbrec.library`: the proved machines
through the C library. Nothing about the rest is proved: it is a reading of the rules of its own, by
docs/PROTOCOL.md.
"""

__version__ = "0.2.0"
