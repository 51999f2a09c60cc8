"""Runs maltlink over inputs, rates and sets of parameters on a Dask cluster, and collects one row for each run.

    python3 sweep.py --rate 10mbit --rate 50mbit --set 'target 5ms' --set 'target 20ms noecn' --output rows.csv *.csv

Each input runs at each rate with each set: here two rates and two sets make four runs of each file. A row has the
input, the rate of the link, the words of the set, and what `maltlink` writes of all packets in its table `flows`.

Without --scheduler the runs share this machine's processors. On more machines, start `dask scheduler` on one and
`dask worker ADDRESS` on each, and give --scheduler ADDRESS. Every machine needs maltlink, and the inputs under the same
names, as on a shared file system.

A run that fails, or that the cluster lost, is reported on standard error, and the status is 1. The same command repeats
these alone: a run whose row is in the output isn't made again. Before it ends the script compares rows with runs, so
none is missing without a report.

It needs Debian's package python3-distributed. sweep.sh does the same by GNU parallel.
"""

from __future__ import annotations

import argparse
import asyncio
import contextlib
import csv
import importlib
import itertools
import os
import shlex
import subprocess
import sys
import tempfile
import time
from collections.abc import Iterator, Mapping
from pathlib import Path
from typing import Any, NamedTuple, Optional

KEYS = ["input", "link", "words"]
# So long a cluster of this machine may take to end.
CLOSING_SECONDS = 20


class Run(NamedTuple):
    """A run of maltlink: the file of arrivals, the rate of the link, and the parameters as one text."""

    input: str
    link: str
    words: str


def make(arrivals: str, rate: str, words: str, maltlink: str) -> dict[str, str]:
    """Makes a run, and gives what was written of all packets. Raises an error that says what went wrong."""
    with open(arrivals, "rb") as file:
        ran = subprocess.run([maltlink, "--rate", rate, *shlex.split(words)], stdin=file, capture_output=True,
                             text=True, check=False)
    if ran.returncode != 0:
        raise RuntimeError(f"status {ran.returncode}: {ran.stderr.strip()}")
    rows = [row for row in csv.DictReader(ran.stdout.splitlines()) if row["tuple"] == "all"]
    if len(rows) != 1:
        raise RuntimeError(f"{len(rows)} rows of all packets, and one is wanted")
    columns = {name: value for name, value in rows[0].items() if name not in ("queue", "tuple")}
    if not columns.keys().isdisjoint(("input", "link", "words")):
        raise RuntimeError("a column is called input, link or words, as those of a sweep are")
    return columns


def read_rows(output: Path) -> list[dict[str, str]]:
    """The rows of an earlier sweep. A last line without an end was cut off as it was written, and doesn't count."""
    if not output.exists():
        return []
    text = output.read_text(encoding="utf-8")
    rows = list(csv.DictReader(text[:text.rfind("\n") + 1].splitlines()))
    for row in rows:
        if not set(KEYS) <= row.keys() or None in row.values():
            raise SystemExit(f"sweep: {output} isn't the output of a sweep: it has the row {row}")
    return rows


def write_rows(output: Path, rows: list[dict[str, str]]) -> None:
    """Writes all rows anew, in order, in place of the file that was there."""
    beside = output.with_name(output.name + ".new")
    with open(beside, "w", encoding="utf-8", newline="") as file:
        if rows:
            writer = csv.DictWriter(file, rows[0].keys(), lineterminator="\n")
            writer.writeheader()
            writer.writerows(sorted(rows, key=lambda row: key_of(row)))
    beside.replace(output)


def append_row(output: Path, row: dict[str, str]) -> None:
    """Adds a row at the end, and a header before the first one."""
    with open(output, "a", encoding="utf-8", newline="") as file:
        writer = csv.DictWriter(file, row.keys(), lineterminator="\n")
        if file.tell() == 0:
            writer.writeheader()
        writer.writerow(row)


def key_of(row: Mapping[str, str]) -> Run:
    """The run that a row is of."""
    return Run(row["input"], row["link"], row["words"])


@contextlib.contextmanager
def cluster(asked: argparse.Namespace) -> Iterator[Any]:
    """A client of the cluster that is asked for: the scheduler's, or one of this machine, which ends with the sweep."""
    distributed = importlib.import_module("distributed")
    if asked.scheduler:
        try:
            client = distributed.Client(asked.scheduler, timeout=10)
        except OSError as error:
            raise SystemExit(f"sweep: no Dask scheduler at {asked.scheduler}: {error}") from None
        with client:
            yield client
        return
    with tempfile.TemporaryDirectory() as room:
        local = distributed.LocalCluster(n_workers=asked.workers, threads_per_worker=1, dashboard_address=None,
                                         local_directory=room)
        client = distributed.Client(local)
        try:
            yield client
        finally:
            # Every row is written by now. A cluster that doesn't end is left to the end of this process.
            with contextlib.suppress(asyncio.TimeoutError, OSError):
                client.close(timeout=CLOSING_SECONDS)
                local.close(timeout=CLOSING_SECONDS)


def ended(client: Any, runs: list[Run], asked: argparse.Namespace) -> Iterator[tuple[Run, Any]]:
    """Makes runs, and gives each with its future as it ends, whatever its end. No more are handed in than there are
    threads, since a worker that dies takes along what waits there. Runs that haven't ended in time, or when the
    scheduler is gone, aren't given.
    """
    deadline = time.monotonic() + asked.timeout if asked.timeout is not None else None
    waiting, made = runs[::-1], dict[Any, Run]()
    while (waiting or made) and client.status == "running" and (deadline is None or time.monotonic() < deadline):
        try:
            threads = sum(client.nthreads().values())
        except OSError:
            return
        while waiting and len(made) < max(1, threads):
            run = waiting.pop()
            made[client.submit(make, *run, asked.maltlink, pure=False)] = run
        done = [future for future in made if future.status != "pending"]
        yield from ((made.pop(future), future) for future in done)
        time.sleep(0 if done else 0.02)


def collect(client: Any, runs: list[Run], asked: argparse.Namespace) -> dict[Run, str]:
    """Makes runs on a cluster, and gives what went wrong with those that have no row. A row is in the output as soon
    as it is known, so a sweep that is stopped keeps what it has.
    """
    wrong = dict.fromkeys(runs, "no answer came")
    for run, future in ended(client, runs, asked):
        if future.status == "finished":
            append_row(asked.output, {**run._asdict(), **future.result()})
            del wrong[run]
        elif future.status == "error":
            wrong[run] = f"{type(future.exception()).__name__}: {future.exception()}"
        else:
            wrong[run] = f"the cluster lost it ({future.status})"
    return wrong


def arguments(words: Optional[list[str]]) -> argparse.Namespace:
    """The words of the command line."""
    parser = argparse.ArgumentParser(description="Runs maltlink over inputs and parameters on a Dask cluster.")
    parser.add_argument("inputs", nargs="+", metavar="INPUT", help="a file of arrivals")
    parser.add_argument("--rate", action="append", required=True, help="a rate of the link; may stand more than once")
    parser.add_argument("--set", action="append", help="parameters, as 'target 5ms noecn'; may stand more than once")
    parser.add_argument("--output", type=Path, required=True, metavar="FILE", help="the rows, as CSV")
    parser.add_argument("--maltlink", default="maltlink", metavar="PROGRAM", help="the program [maltlink]")
    parser.add_argument("--scheduler", metavar="ADDRESS", help="a Dask scheduler [a cluster on this machine]")
    parser.add_argument("--workers", type=int, default=os.cpu_count(), help="workers on this machine [its processors]")
    parser.add_argument("--timeout", type=float, metavar="SECONDS", help="how long the sweep may take [for ever]")
    return parser.parse_args(words)


def main(words: Optional[list[str]] = None) -> int:
    asked = arguments(words)
    combined = itertools.product(map(os.path.abspath, asked.inputs), asked.rate, asked.set or [""])
    due = list(dict.fromkeys(Run(*run) for run in combined))
    rows = read_rows(asked.output)
    made = {key_of(row) for row in rows}
    left = [run for run in due if run not in made]
    if left:
        write_rows(asked.output, rows)
        with cluster(asked) as client:
            wrong = collect(client, left, asked)
            # A cluster may take long to end, so all is told and written before.
            for run, why in wrong.items():
                print(f"sweep: no row of {run.input}, rate {run.link}, set '{run.words}': {why}", file=sys.stderr)
            write_rows(asked.output, read_rows(asked.output))
    missing = set(due) - {key_of(row) for row in read_rows(asked.output)}
    have = f"{len(due) - len(missing)} of {len(due)} runs have a row in {asked.output}"
    print(f"sweep: {have}, {len(left)} were made now", file=sys.stderr)
    return 1 if missing else 0


if __name__ == "__main__":
    sys.exit(main())
