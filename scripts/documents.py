#!/usr/bin/env python3
"""Writes the documents that bench.sh measures, each near a limit of planning, into a folder."""

import json
import sys
from pathlib import Path


def project(options=(), rules=(), nodes=(), segments=(), cavities=(), nets=()):
    return {
        "version": 1,
        "project": {
            "options": list(options),
            "rules": list(rules),
            "nodes": list(nodes),
            "segments": list(segments),
            "cavities": list(cavities),
            "nets": list(nets),
        },
    }


def node(name, harness="H", branch=1):
    return {"name": name, "harness": harness, "branch": branch}


def run(name, a, b, length):
    return {"name": name, "from": a, "to": b, "length": length}


def coupler(name, a, b, price, pins):
    return {"name": name, "from": a, "to": b, "price": price, "pins": pins}


def cavity(name, at, device="D"):
    return {"name": name, "device": device, "node": at}


def net(name, terminals):
    return {"name": name, "terminals": [{"cavity": c, "when": w} for c, w in terminals]}


def torus(side, terminals):
    """One net of so many cavities on a square of nodes, each joined to its eight neighbours."""
    name = lambda x, y: f"N{(x % side) * side + y % side}"
    nodes = [node(name(x, y)) for x in range(side) for y in range(side)]
    segments = []
    for x in range(side):
        for y in range(side):
            for dx, dy in ((0, 1), (1, 0), (1, 1), (1, -1)):
                length = 100 + (37 * len(segments)) % 120
                segments.append(run(f"S{len(segments)}", name(x, y), name(x + dx, y + dy), length))
    places = [(197 * k) % (side * side) for k in range(terminals)]
    cavities = [cavity(f"C{k}", f"N{at}") for k, at in enumerate(places)]
    return project((), (), nodes, segments, cavities, [net("W", [(c["name"], True) for c in cavities])])


def many_sets(nets):
    """Nets of twelve cavities, each needed under an option of its own: 4,083 live sets a net."""
    cavities = [cavity(f"C{n}.{k}", "N") for n in range(nets) for k in range(12)]
    lists = [net(f"W{n}", [(f"C{n}.{k}", f"O{k}") for k in range(12)]) for n in range(nets)]
    return project([f"O{k}" for k in range(12)], (), [node("N")], (), cavities, lists)


def many_rows(pairs):
    """One rule: some pair of options that stand far apart is chosen."""
    options = [f"A{k}" for k in range(pairs)] + [f"B{k}" for k in range(pairs)]
    rule = ["or"] + [["and", f"A{k}", f"B{k}"] for k in range(pairs)]
    return project(options, [rule])


def long_layouts(nodes, nets):
    """Nets from end to end of a chain of nodes."""
    chain = [run(f"S{k}", f"N{k}", f"N{k + 1}", 1) for k in range(nodes - 1)]
    cavities, lists = [], []
    for n in range(nets):
        cavities += [cavity(f"A{n}", "N0"), cavity(f"B{n}", f"N{nodes - 1}")]
        lists.append(net(f"W{n}", [(f"A{n}", True), (f"B{n}", True)]))
    return project((), (), [node(f"N{k}") for k in range(nodes)], chain, cavities, lists)


def many_wires(harnesses, nets):
    """Nets through a chain of couplers; of four groups of nets one is built."""
    nodes = [node(f"N{k}", f"H{k}") for k in range(harnesses)]
    couplers = [coupler(f"X{k}", f"N{k}", f"N{k + 1}", 10, 512) for k in range(harnesses - 1)]
    cavities, lists = [], []
    for n in range(nets):
        cavities += [cavity(f"A{n}", "N0"), cavity(f"B{n}", f"N{harnesses - 1}")]
        lists.append(net(f"W{n}", [(f"A{n}", f"O{n % 4}"), (f"B{n}", f"O{n % 4}")]))
    options = [f"O{k}" for k in range(4)]
    return project(options, [["one"] + options], nodes, couplers, cavities, lists)


def doors(count):
    """A body with so many door branches, each with a power net and a signal net of three variants."""
    nodes = [node(f"B{i}", "BODY", 20) for i in range(count + 1)]
    segments, cavities, nets = [], [], []
    for i in range(1, count + 1):
        nodes += [node(f"D{i}", "DOOR", 20), node(f"E{i}", "DOOR", 20)]
        segments.append(run(f"R{i}", f"B{i - 1}", f"B{i}", 100 + (37 * i) % 50))
    for i in range(1, count + 1):
        segments += [coupler(f"X{i}", f"B{i}", f"D{i}", 30, 24), run(f"Q{i}", f"D{i}", f"E{i}", 200)]
        for name, at, device in (
            (f"PB{i}", "B0", "BODY"),
            (f"PD{i}", f"E{i}", "DOOR"),
            (f"SB{i}", f"B{i}", "BODY"),
            (f"SD{i}", f"E{i}", "DOOR"),
            (f"SE{i}", f"B{i - 1}", "BODY"),
            (f"ST{i}", f"D{i}", "DOOR"),
        ):
            cavities.append(cavity(name, at, device))
        nets.append(net(f"P{i}", [(f"PB{i}", True), (f"PD{i}", True)]))
        nets.append(
            net(f"S{i}", [(f"SB{i}", True), (f"SD{i}", ["or", "O1", "O2"]), (f"SE{i}", "O3"), (f"ST{i}", "O4")])
        )
    options = ["O1", "O2", "O3", "O4"]
    return project(options, [["one", "O1", "O2", "O3"]], nodes, segments, cavities, nets)


DOCUMENTS = {
    "twelve_terminals_on_1024_nodes": lambda: torus(32, 12),
    "sixteen_thousand_live_sets": lambda: many_sets(4),
    "eight_thousand_live_sets": lambda: many_sets(2),
    "rows_of_sixteen_pairs": lambda: many_rows(16),
    "a_million_layout_steps": lambda: long_layouts(1000, 1001),
    "half_a_million_layout_steps": lambda: long_layouts(1000, 500),
    "sixty_five_thousand_wires": lambda: many_wires(32, 2048),
    "thirty_two_thousand_wires": lambda: many_wires(32, 1024),
    "twenty_doors": lambda: doors(20),
    "two_hundred_doors": lambda: doors(200),
}


def main():
    folder = Path(sys.argv[1])
    folder.mkdir(parents=True, exist_ok=True)
    for name, make in DOCUMENTS.items():
        (folder / f"{name}.json").write_text(json.dumps(make(), separators=(",", ":")))


if __name__ == "__main__":
    main()
