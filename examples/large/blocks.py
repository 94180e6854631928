"""The vertices of more points than one machine holds, by Dask's distributed scheduler.

    blocks.py POINTS [--workers N] [--shape square|parabola] [--seed S] [--kill]

The vertices of a union are those of the vertices. So each worker loads blocks of at most 1,048,576 points, which here are made by the
block's number from the seed, and keeps the polygon of each; polygons are merged as a tree, and only vertices are sent. With
--kill one worker is killed in the middle: its blocks are made again by the others, and the answer is the same. `--workers 0` does all
in this one process, with no Dask. The answer goes to the standard output, what it took to the other one.
"""
import argparse
import os
import signal
import sys
import time
from functools import partial

import numpy

import hull

BLOCK, MERGED_AT_ONCE = 1 << 20, 16


def mixed(words):
    """Numbers of 64 bits that look random, of the words of a counter (Steele, Lea and Flood, 2014)."""
    words = (words ^ words >> numpy.uint64(30)) * numpy.uint64(0xBF58476D1CE4E5B9)
    words = (words ^ words >> numpy.uint64(27)) * numpy.uint64(0x94D049BB133111EB)
    return words ^ words >> numpy.uint64(31)


def points_of(shape, seed, first, count):
    """The points from one number on: random ones of a square, or those of a parabola in mixed order, where all are vertices."""
    numbers = numpy.arange(first, first + count, dtype=numpy.uint64)
    if shape == "parabola":
        x = (numbers * numpy.uint64(0x9E3779B1) % numpy.uint64(1 << 20)).astype(numpy.int64) - (1 << 19)
        return numpy.stack((x, x * x), axis=1)
    counter = numpy.stack((2 * numbers, 2 * numbers + numpy.uint64(1)), axis=1)
    words = mixed(numpy.uint64(seed) + counter * numpy.uint64(0x9E3779B97F4A7C15))
    return (words >> numpy.uint64(24)).astype(numpy.int64) - (1 << 39)


def polygon_of_block(asked, number):
    """The polygon of a block: what a worker does with the points that it has."""
    first = number * asked.block
    return hull.Polygon.of(points_of(asked.shape, asked.seed, first, min(asked.block, asked.points - first)))


def by_one_process(asked, blocks):
    """The polygon of all, one block after the other."""
    return hull.merge(polygon_of_block(asked, number) for number in range(blocks))


def kill_one(client):
    """Kills the worker that holds most polygons, with them."""
    address, held = max(client.has_what().items(), key=lambda it: len(it[1]))
    print("a worker is killed that holds", len(held), "polygons", file=sys.stderr)
    os.kill(client.run(os.getpid, workers=[address])[address], signal.SIGKILL)


def by_workers(asked, blocks, client):
    """The same by the workers of a client: a task for each block, and one for each group of polygons that are merged."""
    from distributed import wait
    layer = client.map(partial(polygon_of_block, asked), range(blocks), pure=False)
    if asked.kill:
        wait(layer[:max(1, blocks // 2)])
        kill_one(client)
    while len(layer) > 1:
        groups = [layer[first:first + MERGED_AT_ONCE] for first in range(0, len(layer), MERGED_AT_ONCE)]
        layer = [client.submit(hull.merge, group, pure=False) for group in groups]
    return layer[0].result()


def sent():
    """The bytes that went over the machine's own network, of whatever program (Linux tells them)."""
    with open("/proc/net/dev", encoding="ascii") as lines:
        return next(int(line.split()[1]) for line in lines if line.strip().startswith("lo:"))


def with_cluster(asked, blocks):
    """The polygon of all by workers, each a process, with the seconds and the bytes from when all are there."""
    from distributed import Client, LocalCluster
    with LocalCluster(n_workers=asked.workers, threads_per_worker=1, dashboard_address=None) as cluster, Client(cluster) as client:
        client.wait_for_workers(asked.workers)
        begun, before = time.time(), sent()
        polygon = by_workers(asked, blocks, client)
        return polygon, time.time() - begun, sent() - before


def main():
    words = argparse.ArgumentParser(description=__doc__, formatter_class=argparse.RawDescriptionHelpFormatter)
    words.add_argument("points", type=int)
    words.add_argument("--workers", type=int, default=4)
    words.add_argument("--block", type=int, default=BLOCK)
    words.add_argument("--shape", choices=("square", "parabola"), default="square")
    words.add_argument("--seed", type=int, default=1)
    words.add_argument("--kill", action="store_true")
    asked = words.parse_args()
    if asked.points < 1 or not 1 <= asked.block <= BLOCK or asked.shape == "parabola" and asked.points > BLOCK:
        sys.exit(f"blocks.py: blocks are of 1 to {BLOCK} points, and the parabola has so many at most")
    blocks = -(-asked.points // asked.block)
    if asked.workers:
        polygon, seconds, crossed = with_cluster(asked, blocks)
    else:
        begun, crossed = time.time(), 0
        polygon, seconds = by_one_process(asked, blocks), time.time() - begun
    print(asked.points, "points,", len(polygon), "corners, doubled area", polygon.doubled_area(), "diameter", *sum(polygon.diameter(), ()))
    print(f"{seconds:.2f} s, {asked.points / seconds / 1e6:.2f} million points a second, {crossed} bytes sent", file=sys.stderr)


if __name__ == "__main__":
    main()
