"""Runs the two programs in turn, five times each, and tells the least processor time of an evaluation and of a step of SQLite."""
import resource
import subprocess
import sys

COUNT = 1_000_000


def spent():
    used = resource.getrusage(resource.RUSAGE_CHILDREN)
    return used.ru_utime + used.ru_stime


def evaluation(program):
    """Nanoseconds of an evaluation; starting and making the expression are less than a hundredth of it."""
    before = spent()
    told = subprocess.run([program], stdout=subprocess.PIPE, check=True).stdout
    assert int(told) == COUNT, told
    return (spent() - before) * 1e9 / COUNT


def steps(program):
    """Nanoseconds of a step that shows the expression, and of one that shows a constant; the program tells them itself."""
    told = subprocess.run([program], stdout=subprocess.PIPE, check=True).stdout
    return tuple(map(int, told.split()))


def main():
    ours, sqlite = sys.argv[1:]
    each, step, bare = float("inf"), float("inf"), float("inf")
    for _ in range(5):
        each = min(each, evaluation(ours))
        shown, constant = steps(sqlite)
        step, bare = min(step, shown), min(bare, constant)
    print(f"an evaluation: {each:.0f} ns")
    print(f"a step of SQLite that shows the expression: {step} ns, ratio {each / step:.2f}")
    print(f"what the expression adds to a step: {step - bare} ns, ratio {each / (step - bare):.2f}")


main()
