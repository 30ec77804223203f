"""Measures a call that plumbing repeats: turns.py PROGRAM TURNS WORD:COUNT ..

`PROGRAM WORD COUNT N` makes ready what the call needs and calls it N times. What a call takes is the difference of a run
with TURNS turns and one with none, by TURNS.
"""
import resource
import subprocess
import sys


def seconds(*command):
    before = resource.getrusage(resource.RUSAGE_CHILDREN)
    subprocess.run(command, stdout=subprocess.DEVNULL, check=True)
    after = resource.getrusage(resource.RUSAGE_CHILDREN)
    return after.ru_utime + after.ru_stime - before.ru_utime - before.ru_stime


def main():
    program, turns, *measured = sys.argv[1:]
    for word, count in (each.split(":") for each in measured):
        ready = seconds(program, word, count, "0")
        call = (seconds(program, word, count, turns) - ready) / int(turns)
        print(f"{word} {int(count):9,} made ready {ready:6.2f} s, call {1000 * call:8.2f} ms processor", flush=True)
    print(f"at most {resource.getrusage(resource.RUSAGE_CHILDREN).ru_maxrss // 1024} MiB")


main()
