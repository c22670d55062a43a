#!/usr/bin/env python3
"""Compares the program with sqlite3.

    python3 bench/bench.py [--program PATH] [ROWS ..]   (100000 and 1000000 rows where none are given)

One table is filled by INSERTs and then read whole. Then a table of four times the pool's frames is read
whole ten times, and the reads of its file are counted for each page and each time; and all of its rows are
deleted, and the writes of its file are counted for each page. Then come the statements of WORKLOADS, against sqlite3 with its database in memory: the instructions by callgrind, and
the processor time, each without that of the statements that go before.

Where no program is named it builds it with `rt run` where that has changed. It runs each script in a
temporary folder with its output in a file, and prints Markdown tables. Where there is no `sqlite3` on the
path, its columns say so; without `strace` nothing is said of reads and writes, and the workloads are left
out where `sqlite3` or `valgrind` is not there.
"""
import argparse
import os
import re
import shutil
import subprocess
import sys
import tempfile
import time
from pathlib import Path

CRATE = Path(__file__).resolve().parent.parent / "crates" / "heapgov"
ROWS = [100_000, 1_000_000]
ROWS_OF_INSERT = 64
ROWS_OF_PAGE = 128
POOL = 128
SCANS = 10
RUNS = 5
FILES = ["heapgov.main", "heapgov.temp"]
ABSENT = "not there"

# One file for its pages, 128 pages of 4,096 bytes in memory, and nothing kept for a crash.
SQLITE_HEAD = """PRAGMA page_size = 4096;
PRAGMA cache_size = 128;
PRAGMA journal_mode = OFF;
PRAGMA synchronous = OFF;
"""


def build():
    """Builds the program, as rt does before it runs it, and runs it on an empty script."""
    program = CRATE / "out" / "heapgov"
    done = subprocess.run(
        ["rt", "run"], cwd=CRATE, stdin=subprocess.DEVNULL, stdout=subprocess.PIPE,
        stderr=subprocess.STDOUT, text=True)
    if done.returncode != 0 or not program.exists():
        sys.exit(done.stdout + "\nbench: the program could not be built")
    return program


def insert_lines(table, rows, rows_of_insert=ROWS_OF_INSERT):
    """INSERTs of these rows, one in a line."""
    return [f"INSERT INTO {table} VALUES {', '.join(rows[first:first + rows_of_insert])};"
            for first in range(0, len(rows), rows_of_insert)]


def two_numbers(rows):
    """Row n is n and a number that comes in no order."""
    return [f"({n}, {n * 7919 % 1_000_003})" for n in range(rows)]


def write_lines(path, lines):
    path.write_text("".join(line + "\n" for line in lines))


def write_script(path, rows, head="", scans=1):
    """A table of two numbers that is filled, and then read whole so many times."""
    write_lines(path, [*head.splitlines(), "CREATE TABLE t (a INTEGER, b INTEGER);",
                       *insert_lines("t", two_numbers(rows)), *["SELECT * FROM t;"] * scans])


def peak_so_far(pid):
    """The most memory that a running process had, in bytes; 0 where it has ended."""
    try:
        found = re.search(r"VmHWM:\s+(\d+) kB", Path(f"/proc/{pid}/status").read_text())
    except OSError:
        return 0
    return int(found[1]) * 1024 if found else 0


def measure(command, script, output, folder):
    """Runs the command; its processor time and wall time in seconds, and peak memory in bytes.

    The system's own peak of an ended process counts this script's memory too, which it begins with:
    so the peak is looked up every two milliseconds.
    """
    peak = 0
    with open(script) as source, open(output, "w") as sink:
        begin = time.monotonic()
        process = subprocess.Popen(command, stdin=source, stdout=sink, cwd=folder)
        ended = 0
        while ended == 0:
            peak = max(peak, peak_so_far(process.pid))
            time.sleep(0.002)
            ended, status, used = os.wait4(process.pid, os.WNOHANG)
        wall = time.monotonic() - begin
    process.returncode = os.waitstatus_to_exitcode(status)
    if process.returncode != 0:
        sys.exit(f"bench: {command[0]} ended with status {process.returncode}")
    return used.ru_utime + used.ru_stime, wall, peak


def lines_with_rows(path, start):
    """How many lines of an output are rows."""
    with open(path) as output:
        return sum(line.startswith(start) for line in output)


def count_calls(command, script, folder):
    """How often the program read and wrote each file of its devices, which it does at a place."""
    trace = folder / "trace"
    with open(script) as source:
        subprocess.run(
            ["strace", "-f", "--seccomp-bpf", "-y", "-qq", "-s", "0",
             "-e", "trace=pread64,pwrite64", "-o", str(trace), *command],
            stdin=source, stdout=subprocess.DEVNULL, cwd=folder, check=True)
    counts = {name: {"read": 0, "write": 0} for name in FILES}
    call = re.compile(r"\bp(read|write)64\(\d+<[^>]*/(heapgov\.\w+)>")
    with open(trace) as lines:
        for line in lines:
            found = call.search(line)
            if found and found[2] in counts:
                counts[found[2]][found[1]] += 1
    trace.unlink()
    return counts


def megabytes(size):
    return f"{size / 2**20:.1f} MB"


def seconds(used):
    return f"{used[0]:.2f} / {used[1]:.2f} s"


def bench(program, rows, folder):
    """One line of the table."""
    ours, theirs = folder / "ours.sql", folder / "theirs.sql"
    write_script(ours, rows)
    write_script(theirs, rows, SQLITE_HEAD)
    used = measure([program], ours, folder / "ours.out", folder)
    if lines_with_rows(folder / "ours.out", "row ") != rows:
        sys.exit("bench: the program did not give every row once")
    cells = [f"{rows:,}", seconds(used)]
    if shutil.which("sqlite3"):
        other = measure(["sqlite3", "-batch", "bench.db"], theirs, folder / "theirs.out", folder)
        if lines_with_rows(folder / "theirs.out", "") < rows:
            sys.exit("bench: sqlite3 did not give every row once")
        (folder / "bench.db").unlink()
        ratios = f"{used[0] / other[0]:.2f} / {used[1] / other[1]:.2f}"
        cells += [seconds(other), ratios, megabytes(used[2]), megabytes(other[2])]
    else:
        cells += [ABSENT, "-", megabytes(used[2]), ABSENT]
    if shutil.which("strace"):
        counts = count_calls([program], ours, folder)
        cells += [f"{counts[name]['read']:,} / {counts[name]['write']:,}" for name in FILES]
    else:
        cells += ["strace " + ABSENT] * len(FILES)
    return cells


def bench_scans(program, folder):
    """Says how often each page of a table of four times the pool is read when it is scanned."""
    pages = 4 * POOL
    script = folder / "scans.sql"
    counts = []
    for scans in (0, SCANS):
        write_script(script, pages * ROWS_OF_PAGE, scans=scans)
        counts.append(count_calls([program], script, folder)["heapgov.main"]["read"])
    reads = (counts[1] - counts[0]) / (pages * SCANS)
    print(f"A table of {pages} pages, read whole {SCANS} times with {POOL} frames: "
          f"{reads:.2f} reads a page and scan.")


def bench_deletion(program, folder):
    """Says how often each page of a table of four times the pool is written when all rows are deleted.

    A scan before it has written what the INSERTs left in the pool, and one behind it what the DELETE left.
    """
    pages = 4 * POOL
    script = folder / "deletion.sql"
    counts = []
    for more in ([], ["DELETE FROM t;", "SELECT * FROM t;"]):
        write_lines(script, ["CREATE TABLE t (a INTEGER, b INTEGER);",
                             *insert_lines("t", two_numbers(pages * ROWS_OF_PAGE)), "SELECT * FROM t;", *more])
        counts.append(count_calls([program], script, folder)["heapgov.main"]["write"])
    print(f"All rows of a table of {pages} pages deleted, with {POOL} frames: "
          f"{(counts[1] - counts[0]) / pages:.2f} writes a page.")


def numbers_with_rest(rows):
    """Row n is n, a number that comes in no order, and what is left of n by 100."""
    return [f"({n}, {n * 7919 % 1_000_003}, {n % 100})" for n in range(rows)]


def two_texts(rows):
    return [f"('row {n}', 'O''Hara lives at number {n}')" for n in range(rows)]


# Nine of the conditions hold for every row, and the last one for one row in a hundred.
TEN_CONDITIONS = """SELECT a, b FROM t WHERE a >= 0 AND b >= 0 AND c >= 0 AND a < 200000 AND b < 1000003
 AND c < 100 AND a + b < 1200003 AND a <> c - 100 AND (a > 50 OR c <= 50) AND c = 7;""".replace("\n", "")
THREE_NUMBERS = ["CREATE TABLE t (a INTEGER, b INTEGER, c INTEGER);",
                 *insert_lines("t", numbers_with_rest(100_000))]
TWO_TABLES = ["CREATE TABLE t (a INTEGER, b INTEGER);", *insert_lines("t", two_numbers(1_000)),
              "CREATE TABLE u (a INTEGER, b INTEGER);", *insert_lines("u", two_numbers(1_000))]

# What is done, the statements that go before, those that are measured, and how many rows these give.
WORKLOADS = [
    ("10,000 INSERTs of one row",
     ["CREATE TABLE t (a INTEGER, b INTEGER);"], insert_lines("t", two_numbers(10_000), 1), 0),
    ("ten conditions over 100,000 rows, one row in a hundred kept",
     THREE_NUMBERS, [TEN_CONDITIONS], 1_000),
    ("1,000 rows beside 1,000 rows, joined by a sum, for which neither has an index",
     TWO_TABLES, ["SELECT t.a, u.b FROM t JOIN u ON t.a + u.a = 999;"], 1_000),
    ("1,000 rows beside 1,000 rows, joined by equal columns, for which sqlite3 makes an index",
     TWO_TABLES, ["SELECT t.a, u.b FROM t JOIN u ON t.b = u.b;"], 1_000),
    ("100,000 rows of two texts, inserted 64 a statement",
     ["CREATE TABLE t (a VARCHAR(20), b VARCHAR(40));"], insert_lines("t", two_texts(100_000)), 0),
    ("100,000 rows of two texts, read whole",
     ["CREATE TABLE t (a VARCHAR(20), b VARCHAR(40));", *insert_lines("t", two_texts(100_000))],
     ["SELECT * FROM t;"], 100_000),
    ("UPDATE of every row of 100,000", THREE_NUMBERS, ["UPDATE t SET b = b + 1 WHERE a >= 0;"], 0),
    ("UPDATE of one row in a hundred of 100,000", THREE_NUMBERS, ["UPDATE t SET b = b + 1 WHERE c = 7;"], 0),
    ("DELETE of every row of 100,000", THREE_NUMBERS, ["DELETE FROM t WHERE a >= 0;"], 0),
    ("DELETE of one row in a hundred of 100,000", THREE_NUMBERS, ["DELETE FROM t WHERE c = 7;"], 0),
]


def instructions(command, script, folder):
    """How many instructions a program takes for a script, without those of the system."""
    with open(script) as source:
        done = subprocess.run(
            ["valgrind", "--tool=callgrind", "--callgrind-out-file=/dev/null", *command],
            env={**os.environ, "GLIBC_TUNABLES": "glibc.cpu.hwcaps=-ERMS,-FSRM"}, stdin=source,
            stdout=subprocess.DEVNULL, stderr=subprocess.PIPE, text=True, cwd=folder)
    return int(re.search(r"Collected : (\d+)", done.stderr)[1])


# What sqlite3 gets before the statements of a workload; it answers with one line.
NO_JOURNAL = "PRAGMA journal_mode = OFF;"


def cost(command, before, measured, folder):
    """The instructions and the least processor time of some runs, of the statements that are measured."""
    alone, whole = folder / "alone.sql", folder / "whole.sql"
    write_lines(alone, before)
    write_lines(whole, [*before, *measured])
    counts = [instructions(command, script, folder) for script in (alone, whole)]
    times = [min(measure(command, script, folder / "out", folder)[0] for _ in range(RUNS))
             for script in (alone, whole)]
    return counts[1] - counts[0], times[1] - times[0]


def bench_workload(program, workload, folder):
    """One line of the table of workloads."""
    name, before, measured, rows = workload
    ours = cost([program], before, measured, folder)
    if lines_with_rows(folder / "out", "row ") != rows:
        sys.exit("bench: the program did not give every row once")
    theirs = cost(["sqlite3", "-batch", ":memory:"], [NO_JOURNAL, *before], measured, folder)
    if lines_with_rows(folder / "out", "") != rows + 1:
        sys.exit("bench: sqlite3 did not give every row once")
    (count, used), (their_count, their_used) = ours, theirs
    return [name, f"{count / 1e6:,.1f} / {their_count / 1e6:,.1f} million", f"{count / their_count:.2f}",
            f"{used:.3f} / {their_used:.3f} s", f"{used / their_used:.2f}"]


def bench_workloads(program):
    """Compares the statements of each workload."""
    print_head(["statements", "instructions, heapgov / sqlite3", "ratio",
                "user+sys, heapgov / sqlite3", "ratio"])
    for workload in WORKLOADS:
        with tempfile.TemporaryDirectory() as folder:
            print_line(bench_workload(program, workload, Path(folder)))


def print_line(cells):
    print("| " + " | ".join(cells) + " |", flush=True)


def print_head(heads):
    print_line(heads)
    print_line(["---"] * len(heads))


def main():
    parser = argparse.ArgumentParser(description="Compares the program with sqlite3.")
    parser.add_argument("--program", type=Path, help="a built program; else it is built by rt run")
    parser.add_argument("rows", nargs="*", type=int, default=ROWS, help="how many rows the table has")
    words = parser.parse_args()
    program = str((words.program or build()).resolve())
    print_head(["rows", "heapgov, user+sys / wall", "sqlite3, user+sys / wall", "ratio",
                "heapgov, peak memory", "sqlite3, peak memory",
                *(f"{name}, reads / writes" for name in FILES)])
    for number in words.rows:
        with tempfile.TemporaryDirectory() as folder:
            print_line(bench(program, number, Path(folder)))
    if shutil.which("strace"):
        with tempfile.TemporaryDirectory() as folder:
            print()
            bench_scans(program, Path(folder))
            bench_deletion(program, Path(folder))
    if shutil.which("sqlite3") and shutil.which("valgrind"):
        print()
        bench_workloads(program)


if __name__ == "__main__":
    main()
