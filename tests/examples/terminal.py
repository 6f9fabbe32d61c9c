#!/usr/bin/env python3
"""Runs a program with its standard error on a terminal, and prints what it wrote there.

usage: terminal.py PROGRAM
"""
import os
import subprocess
import sys

screen, terminal = os.openpty()
program = subprocess.Popen(sys.argv[1:], stdout=subprocess.DEVNULL, stderr=terminal)
os.close(terminal)
try:
    while said := os.read(screen, 4096):
        sys.stdout.write(said.decode())
except OSError:
    pass  # how Linux reports that the last writer has closed a terminal
sys.exit(program.wait())
