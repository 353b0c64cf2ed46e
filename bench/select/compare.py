"""Runs the two programs on the same queries, and tells the least processor time of an answer of five, their ratio, and the
memory that ORDER BY takes."""
import os
import subprocess
import sys

ROWS = 100_000
ROUNDS = 5
PLAIN = "SELECT id, name FROM t"
SORTED = PLAIN + " ORDER BY name"
QUERIES = [
    "SELECT id FROM t WHERE n = 7 AND name > 'b'",
    SORTED,
    "SELECT n, count(*), sum(id) FROM t GROUP BY n",
    "SELECT count(*) FROM a, b WHERE a.n = b.n",
    "SELECT count(*) FROM a, b WHERE a.n < b.n",
    "SELECT DISTINCT name FROM t",
    "SELECT count(*), sum(id) FROM t",
]


def answer(program, query):
    """(seconds, what stands for the rows): their number and sum, and where they are ordered their order"""
    words = [program, str(ROWS), str(ROUNDS), query]
    told = subprocess.run(words, stdout=subprocess.PIPE, check=True).stdout
    nanos, rows, total, chain = map(int, told.split())
    return nanos / 1e9, (rows, total, chain if "ORDER BY" in query else None)


def peak(program, memory, rows, rounds, query):
    """The most bytes that the program held at once."""
    words = [program, str(rows), str(rounds), query]
    told = subprocess.run(words, env={**os.environ, "LD_PRELOAD": memory}, capture_output=True, check=True).stderr
    return int(told) * 1024


def tell_memory(program, memory):
    standing = peak(program, memory, ROWS, 0, PLAIN)
    rows = standing - peak(program, memory, 0, 0, PLAIN)
    plain, ordered = (peak(program, memory, ROWS, 1, query) - standing for query in (PLAIN, SORTED))
    print(f"the rows of t take {rows / 1e6:.1f} MB, {rows / ROWS:.0f} bytes each")
    for query, more in ((PLAIN, plain), (SORTED, ordered)):
        print(f"{query:50} at most {more / 1e6:.1f} MB beside them, {more / rows:.2f} times the rows")
    print(f"{'what ORDER BY adds':50} {(ordered - plain) / 1e6:.1f} MB, {(ordered - plain) / rows:.2f} times the rows")


def main():
    ours, sqlite, memory = sys.argv[1:]
    print(f"{'':50}{'seconds':>9}{'SQLite':>9}{'ratio':>8}")
    for query in QUERIES:
        mine, rows = answer(ours, query)
        theirs, wanted = answer(sqlite, query)
        same = "" if rows == wanted else "  other rows"
        print(f"{query:50}{mine:9.4f}{theirs:9.4f}{mine / theirs:8.1f}{same}", flush=True)
    tell_memory(ours, memory)


main()
