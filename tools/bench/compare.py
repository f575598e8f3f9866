"""Compares verifications by this library and by others.

usage: python3 -m tools.bench.compare LIBRARY [NAME=WORKER..] [--params 14,8,1:17,8,1] [--alike]
       python3 -m tools.bench.compare LIBRARY [NAME=WORKER..] --picture FILE

It prints *Compared with other libraries* of docs/BENCHMARKS.md in Markdown, or it draws speed.svg, the verifications a second
of as many processes as there are CPUs. LIBRARY is libscrypt_c.so, and a WORKER is a program that tools/tests/worker.py
describes. For the Rust crate, cargo build --release --target-dir build/rust_crate --manifest-path tools/bench/rust_crate/Cargo.toml
makes build/rust_crate/release/rust_crate. The environment variable RUNS (7) is the number of runs in a process. For the table the
minimum of the runs of three processes counts, since one whose tables lie badly in memory is slow in each run; for the picture
the median of one.

All verify one hash, in each run in a new random order; if p is 1, this library verifies it also in batches of two and four.
The processes of the picture run concurrently, each on its own CPU, and all with the same implementation. This library
keeps its tables, and asks for pages of 2 MiB; with --alike it allocates for each verification, as the others do, and nobody
gets such pages.
"""

import argparse
import collections
import multiprocessing
import os
import random
import statistics

from tools.bench import ours, picture
from tools.bench.libraries import FOUR, OURS, TWO, verifications

DRAWN = {OURS: "this library", TWO: "its batches of two", FOUR: "its batches of four"}
PATIENCE = 60  # seconds that a process waits for the others
AGAIN = 3  # processes, one after another


def measured(args, params, seed, cpu):
    """The nanoseconds of each verification by this process, each begun together with those of the others."""
    os.sched_setaffinity(0, {cpu})
    made = verifications(args.library, args.workers, params, args.alike)
    orders, taken = random.Random(seed), collections.defaultdict(list)
    for _ in range(ours.RUNS):
        for name in orders.sample(list(made), len(made)):
            together.wait(PATIENCE)
            nanoseconds, accepted = made[name]()
            if not accepted:
                raise ValueError(f"{name} rejects the password")
            taken[name].append(nanoseconds)
    return {name: taken[name] for name in made}


def in_all(args, params, processes):
    """The nanoseconds of each verification, in this number of processes."""
    global together
    context, seed = multiprocessing.get_context("fork"), random.random()
    together = context.Barrier(processes)
    with context.Pool(processes) as pool:
        cpus = sorted(os.sched_getaffinity(0))[-processes:]
        taken = pool.starmap(measured, [(args, params, seed, cpu) for cpu in cpus], chunksize=1)
    return {name: [time for it in taken for time in it[name]] for name in taken[0]}


def table(args):
    others = None
    for log_n, r, p in (map(int, it.split(",")) for it in args.params.split(":")):
        taken = [in_all(args, (log_n, r, p), 1) for _ in range(AGAIN)]
        least = {name: min(time for it in taken for time in it[name]) for name in taken[0]}
        if others is None:
            others = [name for name in least if name not in DRAWN]
            print(ours.line("(log_n, r, p)", "milliseconds", *others, head=True))
        for name in (it for it in DRAWN if it in least):
            batch, own = "" if name == OURS else f", {name}", least[name]
            print(ours.line(f"({log_n}, {r}, {p}){batch}", f"{own / 1e6:.3g}",
                            *(f"{own / least[it]:.2f}" for it in others)), flush=True)


def draw(args):
    processes, lines = len(os.sched_getaffinity(0)), collections.defaultdict(list)
    for log_n in range(14, 19):
        for name, taken in in_all(args, (log_n, 8, 1), processes).items():
            rate = processes * 1e9 / statistics.median(taken)
            lines[DRAWN.get(name, name)].append((1 << (log_n - 10), rate, f"{log_n}: {rate:.3g}" if name == FOUR else ""))
    title = f"verifications a second on {processes} CPUs, by log_n, r = 8, p = 1"
    picture.draw(args.picture, title, lines, (2, 4, 8, 16, 32, 64, 128, 256))


if __name__ == "__main__":
    parser = argparse.ArgumentParser(usage=__doc__.split("usage: ")[1])
    parser.add_argument("library")
    parser.add_argument("workers", nargs="*")
    parser.add_argument("--params", default="14,8,1:17,8,1:10,8,16:13,8,10:14,8,5:15,8,3:16,8,4")
    parser.add_argument("--picture")
    parser.add_argument("--alike", action="store_true")
    arguments = parser.parse_args()
    print(ours.machine())
    (draw if arguments.picture else table)(arguments)
