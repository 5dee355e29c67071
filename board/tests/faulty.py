#!/usr/bin/python3 -SE
"""Runs the program, and once spoils what its `serve` says, at one reply.
    faulty.py FAULT:N DONE PROGRAM WORDS..
FAULT: drop (reply N is left out), twice, end (it ends instead of reply N), torn (half of reply N, then it ends), mute (it says nothing
more), always (it ends at each reply N), slow (each plan and why takes N seconds). DONE: a file that says that it was done."""
import os
import subprocess
import sys
import time

fault, done, *words = sys.argv[1:]
fault, _, number = fault.partition(":")
if fault == "slow" and words[1] in ("plan", "why"):
    time.sleep(float(number))
if fault == "slow" or words[1] != "serve" or (os.path.exists(done) and fault != "always"):
    os.execv(words[0], words)
program = subprocess.Popen(words, stdout=subprocess.PIPE)
for count, line in enumerate(program.stdout):
    spoiled = count == int(number) and (fault == "always" or not os.path.exists(done))
    if spoiled:
        open(done, "w").close()
    if spoiled and fault == "mute":
        time.sleep(3600)
    if spoiled and fault in ("end", "always", "torn"):
        sys.stdout.buffer.write(line[:len(line) // 2] if fault == "torn" else b"")
        sys.stdout.buffer.flush()
        program.kill()
        sys.exit(1)
    if not (spoiled and fault == "drop"):
        sys.stdout.buffer.write(line * (2 if spoiled and fault == "twice" else 1))
        sys.stdout.buffer.flush()
sys.exit(program.wait())
