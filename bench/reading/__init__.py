"""A reading of docs/FORMATS.md in Python, which shares nothing with the crates: what a whole call comes to, with the calls of
the storage, of the inputs and of the output counted, and with one of them failing. bench/hostile_cases.py makes cases by it.

Not everything is here: words are taken to be in order, no number is above its limit, and of the plans that of Revolve alone is
made."""

from .calls import Call
