#!/usr/bin/env python3
"""Prints how many bytes of code and constants a ROM of `plm86 build` has behind its start-up: measure.py ROM. Start-up ends by MOV SP,0FFFEH and a
jump; what follows up to the last byte that is not 0, before the reset's jump, is counted."""

import sys

with open(sys.argv[1], "rb") as it:
    rom = it.read()
begin = rom.index(b"\xbc\xfe\xff\xe9") + 6
print(len(rom[begin:-16].rstrip(b"\0")))
