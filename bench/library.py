"""Workloads through the C library (library_twin.cc) beside the same in crates/bench, on the same
folders: what the border costs."""
import os
import subprocess

from sides import ROOM, ROOT, Side, build, by_turns, fail, load, number_of, proved_program

COMPARED = ("fillseq", "fillrandom", "readrandom", "readhot", "readseq", "readreverse")


def twin_program():
    library = f"{ROOT}/build/libwachuspi.a"
    if not os.path.isfile(library):
        fail("build/libwachuspi.a isn't there: make lib")
    program = f"{ROOM}/library_twin"
    if os.path.isfile(program) and os.path.getmtime(program) < os.path.getmtime(library):
        os.remove(program)
    os.makedirs(ROOM, exist_ok=True)
    build(f"{ROOT}/bench/library_twin.cc", program, library)
    return program


def show():
    number, rounds, begun = number_of("N", 1_000_000), number_of("ROUNDS", 3), load()
    ours, border = Side("ours", proved_program(), number), Side("C", twin_program(), number)
    ours.prepare()
    border.remove()
    subprocess.run(["cp", "-r", ours.room, border.room], check=True)
    print(f"N = {number:,}, {rounds} rounds, load {begun:.1f} at the beginning; seconds of processors")
    print("\n| Workload | crates/bench | Through C |\n|---|---:|---:|")
    for workload in COMPARED:
        runs = {"ours": lambda it=workload: ours.run(it), "C": lambda it=workload: border.run(it)}
        found = by_turns(workload, runs, rounds)
        print(f"| `{workload}` | {found['ours'][1]:.3f} | {found['C'][1]:.3f} |", flush=True)
    for side in (ours, border):
        side.remove()
