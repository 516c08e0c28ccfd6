"""Interrupts `desk --write` by TERM at many moments: python3 interrupt.py DESK TABLE OLD NEW.

TABLE is put back to the text of OLD before each run, and NEW has the text that the run would leave. Prints how many runs left the
old file and how many the new one, and what went wrong: a status of 0 with the old file, another one with the new file, anything
else in the folder. Python's own start of a process has it past its exec: a signal to a shell's child before that would run the
shell's traps.
"""
import os
import random
import signal
import subprocess
import sys
import time

desk, table, old, new = sys.argv[1:]
old, new = open(old, "rb").read(), open(new, "rb").read()
left = {True: 0, False: 0}
wrong = []


def start():
    with open(table, "wb") as file:
        file.write(old)
    return subprocess.Popen([desk, "--write", table, "reprice", "1", "350"], stderr=subprocess.DEVNULL)


# the signals come within twice the time that the slowest of five runs takes on this machine
longest = 0
for _ in range(5):
    begun = time.monotonic()
    start().wait()
    longest = max(longest, time.monotonic() - begun)
for run in range(600):
    if run >= 100 and min(left.values()) >= 20:
        break
    process = start()
    time.sleep(random.uniform(0, 2 * longest))
    process.send_signal(signal.SIGTERM)
    status = process.wait()
    now = open(table, "rb").read()
    if now != (new if status == 0 else old):
        wrong.append(f"status {status} with {now!r}")
    if os.listdir(os.path.dirname(table)) != [os.path.basename(table)]:
        wrong.append(f"left {os.listdir(os.path.dirname(table))}")
    left[now == new] += 1
print(left[False], left[True], "; ".join(wrong[:3]))
