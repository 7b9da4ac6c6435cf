# networkx on the orders of a sheet, read from standard input: is there a circle, and if not closure and reduction.
# Prints how many orders each has, and the milliseconds without Python's start.
import sys
import time

import networkx

lines = sys.stdin.read().split("\n")
jobs = int(lines[0])
pairs = [tuple(map(int, line.split())) for line in lines[1 + jobs:] if line]
start = time.perf_counter()
graph = networkx.DiGraph()
graph.add_nodes_from(range(jobs))
graph.add_edges_from(pairs)
if networkx.is_directed_acyclic_graph(graph):
    closure = networkx.transitive_closure_dag(graph)
    reduction = networkx.transitive_reduction(graph)
    said = f"{closure.number_of_edges()} {reduction.number_of_edges()}"
else:
    said = "circle"
print(said, f"{1000 * (time.perf_counter() - start):.1f}")
