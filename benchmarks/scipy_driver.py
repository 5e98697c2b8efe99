#!/usr/bin/env python3
"""Products over plus-times, levels, distances and components by scipy.sparse, on one thread. It reads and writes with the plain program's code."""
import ctypes
import os
import sys
import time
from pathlib import Path

import numpy
import scipy.sparse
from scipy.sparse import csgraph

texts = ctypes.CDLL(str(Path(os.environ.get("OUT", Path(__file__).resolve().parent / "out")) / "texts.so"))
texts.columns_of.restype = ctypes.c_void_p
texts.count_of.restype = ctypes.c_size_t
TOP = 2**64 - 1


def address(array):
    return ctypes.c_void_p(array.ctypes.data)


def read(name, turned, ones):
    m = ctypes.c_void_p(texts.columns_of(name.encode(), 1, turned, ones))
    rows, cols, count = texts.rows_of(m), texts.cols_of(m), texts.count_of(m)
    starts, row, value = numpy.empty(cols + 1, numpy.int64), numpy.empty(count, numpy.int64), numpy.empty(count, numpy.uint64)
    texts.lists_of(m, address(starts), address(row), address(value))
    return scipy.sparse.csc_matrix((value, row, starts), shape=(rows, cols))


def write(m):
    m.sort_indices()
    value = numpy.ascontiguousarray(m.data, numpy.uint64)
    put = texts.write_lists32 if m.indices.dtype == numpy.int32 else texts.write_lists64
    put(m.shape[0], m.shape[1], address(m.indptr), address(m.indices), address(value), 1)


def levels(edges, source):
    """By the order of a breadth-first search and the vertex before each."""
    order, before = csgraph.breadth_first_order(edges, source, directed=True, return_predecessors=True)
    number = numpy.full(edges.shape[0], TOP, numpy.uint64)
    number[source] = 0
    level = [0] * edges.shape[0]
    before = before.tolist()
    for v in order.tolist()[1:]:
        level[v] = level[before[v]] + 1
    number[order] = numpy.asarray(level, numpy.uint64)[order]
    return number


def distances(edges, source):
    far = csgraph.dijkstra(edges.astype(numpy.float64), directed=True, indices=source)
    number = numpy.full(edges.shape[0], TOP, numpy.uint64)
    known = numpy.isfinite(far)
    number[known] = far[known].astype(numpy.uint64)
    return number


def components(graph):
    """The least vertex of each component, counted from 1, of the vertices that have an edge."""
    labels = csgraph.connected_components(graph, directed=False)[1]
    least = numpy.full(labels.max(initial=-1) + 1, TOP, numpy.uint64)
    numpy.minimum.at(least, labels, numpy.arange(1, len(labels) + 1, dtype=numpy.uint64))
    number = least[labels]
    there = numpy.zeros(len(labels), bool)
    there[graph.indices] = True
    there[numpy.diff(graph.indptr) > 0] = True
    number[~there] = TOP
    return number


def main():
    words = sys.argv[1:]
    options = {words[k]: words[k + 1] for k in range(len(words) - 1) if words[k].startswith("--")}
    command, files = words[0], [w for k, w in enumerate(words[1:], 1) if not w.startswith("--") and not words[k - 1].startswith("--")]
    if options.get("--semiring", "plus-times") != "plus-times":
        sys.exit("not done here: other semirings")
    start = time.perf_counter()
    if command == "multiply":
        a, b = (read(name, 0, 0) for name in files)
        at_work = time.perf_counter()
        answer = a @ b
    elif command == "components":
        graph = read(files[0], 0, 1)
        at_work = time.perf_counter()
        answer = components(graph)
    else:
        # Rows of this matrix are the columns of the transpose: the edges that leave a vertex.
        edges = read(files[0], 1, command == "bfs").transpose()
        source = int(options["--source"]) - 1
        at_work = time.perf_counter()
        answer = (levels if command == "bfs" else distances)(edges, source)
    done = time.perf_counter()
    if command == "multiply":
        write(answer)
    else:
        texts.write_numbers(ctypes.c_size_t(len(answer)), address(answer))
    end = time.perf_counter()
    print(f"read {1e3 * (at_work - start):.2f} compute {1e3 * (done - at_work):.2f} write {1e3 * (end - done):.2f}", file=sys.stderr)


main()
