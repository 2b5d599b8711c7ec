"""Runs two programs on the domains of the benchmark, compares what they print, and prints a table of times.

Arguments: the proved program, the Rust program, the folder of the domains.
The time of a search is processor time (user and system) of the whole process: that of many rounds less that of one,
so that starting and reading do not count, divided by the searches between. Each is the least of several runs.
"""
import os
import subprocess
import sys

REPEATS = 7
STATES = 100_000  # rounds are as many as come to about so many states for each goal


def run(program, folder, rounds):
    """What the program prints, and the seconds of processor time that it takes."""
    process = subprocess.Popen([program, folder, str(rounds)], stdout=subprocess.PIPE, text=True)
    printed = process.stdout.read()
    _, status, usage = os.wait4(process.pid, 0)
    process.returncode = os.waitstatus_to_exitcode(status)
    if process.returncode != 0:
        sys.exit(f"{program} {folder} {rounds} ended with status {process.returncode}")
    return printed, usage.ru_utime + usage.ru_stime


def compare(programs, folder, states):
    """The seconds that a search takes, for each program."""
    with open(os.path.join(folder, "answers")) as f:
        answers = f.read()
    more = max(1, STATES // states)
    least = {}
    for _ in range(REPEATS):
        for program in programs:
            for rounds in (1, 1 + more):
                printed, seconds = run(program, folder, rounds)
                if printed != answers:
                    sys.exit(f"{program} {folder} prints other lines than {folder}/answers")
                least[program, rounds] = min(seconds, least.get((program, rounds), seconds))
    searches = more * len(answers.splitlines())
    return [(least[program, 1 + more] - least[program, 1]) / searches for program in programs]


def main():
    proved, plain, domains = sys.argv[1:]
    print("states  actions  proved, us  Rust, us  proved / Rust")
    for name in sorted(os.listdir(domains), key=int):
        folder = os.path.join(domains, name)
        with open(os.path.join(folder, "domain.bin"), "rb") as f:
            actions = f.read()[2]
        ours, theirs = compare([proved, plain], folder, int(name))
        print(f"{name:>6}  {actions:>7}  {ours * 1e6:>10.0f}  {theirs * 1e6:>8.0f}  {ours / theirs:>13.2f}")


if __name__ == "__main__":
    main()
