"""Sums sizes by owner on a cluster of Dask, checks limits, and writes each rejected row with the reason to a file.

    dask_job.py [--workers N | --scheduler ADDRESS] [--rejected FOLDER] [--limit OWNER=SIZE].. FILE..

The files are CSV with the columns `owner` and `size`, and each is a partition. Prints the exact sum of each owner. The
exit status is 1 if one is above its limit.

If a worker ends, Dask runs its partitions again on the others, and the result is the same: the sums of a partition are
added once, when they arrive, and its rejected rows are in a file of its own, which a second run replaces. All workers
have to see the files and FOLDER, which the job makes, and need byte_unit and python3-distributed.
"""

import argparse
import csv
import glob
import os
import sys

import byte_unit
import pandas
from dask import dataframe, delayed
from distributed import Client, as_completed

FLAGS: dict[str, bool] = {}  # {"binary": True, "ignore_case": True} if `m` and `mb` mean MiB
HEAD = ["file", "row", "owner", "size", "reason", "position", "message"]


def write_whole(name: str, rows: list[tuple[object, ...]]) -> None:
    """Writes a file that is there only when it is whole, also if it is written twice."""
    unfinished = f"{name}.{os.getpid()}.unfinished"
    with open(unfinished, "w", encoding="utf-8", newline="") as file:
        csv.writer(file).writerows([HEAD, *rows])
    os.replace(unfinished, name)


def summarize(part: pandas.DataFrame, rejected: str) -> dict[str, tuple[int, int]]:
    """Returns the number of sizes of a partition and their sum, by owner, and writes the rows that are rejected."""
    sums, rows = {}, []
    file = next(iter(part["file"]), None)
    for owner, texts in part.groupby("owner")["size"]:
        column = byte_unit.parse_many(texts, **FLAGS)
        sums[owner] = column.codes.count(0), column.sum()
        numbers = texts.index.tolist()
        for row, error in column.errors(texts, **FLAGS):
            rows.append((file, numbers[row] + 1, owner, error.text, error.name, error.position, str(error)))
    write_whole(rejected, sorted(rows, key=lambda row: row[1]))
    return sums


def run(client: Client, files: list[str], folder: str) -> dict[str, tuple[int, int]]:
    """Returns the number of sizes and their sum by owner. Makes the folder, with a file of rejected rows by part."""
    os.makedirs(folder)
    frame = dataframe.read_csv(files, dtype=str, keep_default_na=False, blocksize=None, include_path_column="file")
    jobs = [
        delayed(summarize)(part, os.path.abspath(os.path.join(folder, f"part-{number:05}.csv")))
        for number, part in enumerate(frame.to_delayed())
    ]
    sums: dict[str, tuple[int, int]] = {}
    for _, of_part in as_completed(client.compute(jobs), with_results=True):
        for owner, (count, size) in of_part.items():
            counted, summed = sums.get(owner, (0, 0))
            sums[owner] = counted + count, summed + size
    for name in glob.glob(os.path.join(folder, "*.unfinished")):  # of workers that ended
        os.remove(name)
    return sums


def to_limit(word: str) -> tuple[str, int]:
    """Returns the owner and the limit of an argument `OWNER=SIZE`."""
    owner, _, text = word.rpartition("=")
    try:
        return owner, byte_unit.parse(text, **FLAGS)
    except byte_unit.SizeError as error:
        raise argparse.ArgumentTypeError(str(error)) from None


def main(words: list[str]) -> int:
    """Runs the job, prints the sums, and returns the exit status."""
    parser = argparse.ArgumentParser(description=__doc__, formatter_class=argparse.RawDescriptionHelpFormatter)
    parser.add_argument("--workers", type=int, default=os.cpu_count())
    parser.add_argument("--scheduler")
    parser.add_argument("--rejected", default="rejected")
    parser.add_argument("--limit", type=to_limit, action="append", default=[])
    parser.add_argument("files", nargs="+")
    options = parser.parse_args(words)
    limits, status = dict(options.limit), 0
    how = {"n_workers": options.workers, "threads_per_worker": 1, "dashboard_address": None}
    with Client(options.scheduler) if options.scheduler else Client(**how) as client:
        for owner, (count, size) in sorted(run(client, options.files, options.rejected).items()):
            is_above = size > limits.get(owner, size)
            print(f"{owner}: {count} sizes, {size} bytes" + ", above the limit" * is_above)
            status |= is_above
    return status


if __name__ == "__main__":
    sys.exit(main(sys.argv[1:]))
