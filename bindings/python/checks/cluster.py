"""Runs examples/dask_job.py over generated files on clusters of local processes, and checks what it gives.

    cluster.py TEXTS WORKERS..

Runs the job for each number of worker processes; for the last one once more, and then one of them is ended after some
partitions. Sums and rejected rows have to be those of a model in Python's integers each time. Works in the current
folder.
"""

import contextlib
import csv
import glob
import hashlib
import io
import os
import random
import signal
import sys
import time
from concurrent.futures import ThreadPoolExecutor

from distributed import Client

EXAMPLES = os.path.join(os.path.dirname(os.path.dirname(os.path.abspath(__file__))), "examples")
sys.path.insert(0, EXAMPLES)
os.environ["PYTHONPATH"] = os.pathsep.join([EXAMPLES, os.environ.get("PYTHONPATH", "")])  # for the workers
import dask_job

PARTS = 40  # the files, each of which is a partition
# The units of the texts, and the bytes of each: a text in Kx is rejected.
UNITS = {"B": 1, "KB": 10**3, "KiB": 2**10, "MB": 10**6, "GiB": 2**30, "EB": 10**18, "RB": 10**27, "Kx": None}
Found = tuple[dict[str, tuple[int, int]], str]  # by owner the number of sizes and their sum; a digest of rejected rows
MESSAGE = "{!r} is not a size: the character 'x' is incorrect ('B' or 'b' or no character is expected) (character {})"


def make(part: int, count: int) -> Found:
    """Writes a file of texts. Returns what the job has to find: sums, and a digest of the rejected rows."""
    rng, names, sums, name = random.Random(part), list(UNITS), {}, os.path.abspath(f"texts-{part:05}.csv")
    rejected = io.StringIO()
    table = csv.writer(rejected)
    table.writerow(dask_job.HEAD)
    with open(name, "w", encoding="utf-8") as file:
        file.write("owner,size\n")
        for row in range(1, count + 1):
            number, owner, unit = rng.randrange(100_000), f"owner-{rng.randrange(10)}", names[rng.randrange(8)]
            text = f"{number / 1000} {unit}"
            file.write(f"{owner},{text}\n")
            if UNITS[unit] is None:
                message = MESSAGE.format(text, len(text))
                table.writerow([name, row, owner, text, "unit", len(text) - 1, message])
            else:
                counted, summed = sums.get(owner, (0, 0))
                # Thousandths of a unit, rounded up to a byte.
                sums[owner] = counted + 1, summed - -number * UNITS[unit] // 1000
    return sums, hashlib.sha256(rejected.getvalue().encode()).hexdigest()


def digest(name: str) -> str:
    """Returns a digest of a file."""
    with open(name, "rb") as file:
        return hashlib.sha256(file.read()).hexdigest()


def end_one(worker: int, folder: str) -> int:
    """Ends the process of a worker as soon as some partitions are done. Returns how many are."""
    while len(done := glob.glob(f"{folder}/part-?????.csv")) < PARTS // 8:
        time.sleep(0.001)
    os.kill(worker, signal.SIGKILL)
    return len(done)


def printed(wanted: list[Found]) -> str:
    """Returns what the job has to print. The first owner is above its limit."""
    lines = []
    for owner in sorted({owner for part, _ in wanted for owner in part}):
        counts, sizes = zip(*(part.get(owner, (0, 0)) for part, _ in wanted))
        lines.append(f"{owner}: {sum(counts)} sizes, {sum(sizes)} bytes" + ", above the limit" * (not lines))
    return "".join(line + "\n" for line in lines)


def check(client: Client, wanted: list[Found], ends: bool) -> None:
    """Runs the job, and compares its sums and rejected rows."""
    workers = [*client.run(os.getpid).values()]
    files, folder = sorted(glob.glob("texts-*.csv")), f"rejected-{len(workers)}" + "-ended" * ends
    words = ["--scheduler", client.scheduler.address, "--rejected", folder, "--limit", "owner-0=1 KB", *files]
    with ThreadPoolExecutor() as pool, contextlib.redirect_stdout(io.StringIO()) as said:
        done = ends and pool.submit(end_one, workers[0], folder)
        status = dask_job.main(words)
    assert (status, said.getvalue()) == (1, printed(wanted)), said.getvalue()
    assert [digest(name) for name in sorted(glob.glob(f"{folder}/*"))] == [rows for _, rows in wanted]
    how = f"{len(workers)} processes"
    if ends:
        client.wait_for_workers(len(workers))
        assert workers[0] not in client.run(os.getpid).values() and done.result() < PARTS
        how += f", one of them ended after {done.result()} of {PARTS} partitions"
    print(f"{how}: the same result", flush=True)


def main(count: int, numbers_of_workers: list[int]) -> None:
    """Makes the files by the first cluster, and runs the job on each."""
    wanted: list[Found] = []
    for workers in numbers_of_workers:
        with Client(n_workers=workers, threads_per_worker=1, dashboard_address=None) as client:
            wanted = wanted or client.gather(client.map(make, range(PARTS), count=count // PARTS))
            check(client, wanted, ends=False)
            if workers == numbers_of_workers[-1]:
                check(client, wanted, ends=True)


if __name__ == "__main__":
    main(int(sys.argv[1]), [int(word) for word in sys.argv[2:]])
