"""How cost grows: what an entry takes of processors at several sizes."""
from pages import GROWTH, growth_of, put_between
from sides import ROOT, Side, by_turns, headline, load, number_of, proved_program, twin

# The numbers of entries, and the workloads, on the folders that each leaves for the next. Reads
# also run with LevelDB by pread, as this database reads.
SIZES = (100_000, 1_000_000, 4_000_000)
GROWING = ("fillrandom", "settle", "readrandom")


def runs_of(workload, sides):
    """Returns what is run by turns, by the side's name."""
    ours, theirs = sides
    runs = {"ours": lambda: ours.run(workload), "LevelDB": lambda: theirs.run(workload)}
    return {**runs, "LevelDB by `pread`": lambda: theirs.run(workload, how=("pread",))} if workload == "readrandom" else runs


def grown(programs, rounds):
    """Returns the processor seconds that each side takes at each size, by workload."""
    found = {workload: {} for workload in GROWING}
    for number in SIZES:
        sides = [Side(name, program, number) for name, program in programs.items()]
        for side in sides:
            side.prepare()
        for workload in GROWING:
            for side, (_, processor, _) in by_turns(workload, runs_of(workload, sides), rounds).items():
                found[workload].setdefault(side, []).append(processor)
        for side in sides:
            side.remove()
    return list(found.items())


def show():
    rounds = number_of("ROUNDS", 3)
    programs = {"ours": proved_program(), "LevelDB": twin("LevelDB")}
    begun = load()
    text = growth_of(SIZES, grown(programs, rounds))
    print(text)
    put_between(f"{ROOT}/bench/README.md", GROWTH, headline("Processor microseconds an entry", rounds, begun) + "\n\n" + text)
