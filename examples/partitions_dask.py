"""Filters a stream of record batches that is larger than the memory of a worker, by a local Dask cluster: first of processes, then of threads.
Compares the results with numpy. Batches and results are sent with their buffers outside of the pickle, which does not copy them."""

import resource
from collections import deque
from collections.abc import Iterator

import numpy
from dask.distributed import Client, LocalCluster

import sel

ROWS, BATCHES, WORKERS, AT_ONCE = 500_000, 60, 2, 4
ROW_BYTES = 8 + 8 + 16  # an integer, a float and a view of a string
LIMIT = 400 * 2**20  # bytes of a worker
NAMES = sel.Column([f"a name of more than twelve bytes, number {number}" for number in range(100)])


def numbers(batch: int) -> tuple[numpy.ndarray, numpy.ndarray]:
    """Integers and floats."""
    rng = numpy.random.default_rng(batch)
    return rng.integers(-(2**40), 2**40, ROWS), rng.random(ROWS)


def batches() -> Iterator[sel.Table]:
    """Each batch is made when it is asked for. Columns read the memory of the arrays."""
    for batch in range(BATCHES):
        ids, prices = numbers(batch)
        yield sel.Table({"id": ids, "price": prices, "name": NAMES.take(ids % len(NAMES))})


def every_second_kept(table: sel.Table) -> sel.Table:
    """The rows below a price, and every second one of these."""
    kept = table.filter(table["price"].to_numpy(zero_copy_only=True) < 0.02)
    return kept[numpy.arange(0, len(kept), 2)]


def compare(batch: int, table: sel.Table) -> None:
    ids, prices = numbers(batch)
    places = numpy.flatnonzero(prices < 0.02)[::2]
    numpy.testing.assert_array_equal(table["id"].to_numpy(), ids[places])
    numpy.testing.assert_array_equal(table["price"].to_numpy(), prices[places])
    assert table["name"].equals(NAMES.take(ids[places] % len(NAMES)))


def most_bytes() -> int:
    """The most memory that this process has had."""
    return 1024 * resource.getrusage(resource.RUSAGE_SELF).ru_maxrss


def run(client: Client) -> int:
    """Passes the stream through the workers, a few batches at once. Returns the bytes of all batches."""
    waiting: deque = deque()
    passed = 0
    for batch, table in enumerate(sel.Stream.from_arrow(sel.Stream(batches()))):
        passed += ROW_BYTES * len(table)
        waiting.append((batch, client.submit(every_second_kept, client.scatter(table, hash=False), pure=False)))
        if len(waiting) == AT_ONCE:
            batch, future = waiting.popleft()
            compare(batch, future.result())
    for batch, future in waiting:
        compare(batch, future.result())
    return passed


def main() -> None:
    for kind in ("processes", "threads"):
        with LocalCluster(n_workers=WORKERS, threads_per_worker=2, processes=kind == "processes", memory_limit=LIMIT, dashboard_address=None) as cluster, Client(cluster) as client:
            passed = run(client)
            most = max(client.run(most_bytes).values())
        assert most < LIMIT < passed, (most, LIMIT, passed)
        print(f"{kind}: {BATCHES} batches, {passed // 10**6} MB in all, filtered and taken as numpy does; no worker had {LIMIT // 2**20} MiB")


if __name__ == "__main__":
    main()
