#!/usr/bin/python3
"""draw.py [FILE.svg]: how long an interrupt waits in each cycle of the call, for two secrets, and what plain code runs there.

All that is drawn comes from runs. Needs matplotlib; FILE.svg is latency.svg beside this script where it is left out."""
import os
import sys

HERE = os.path.dirname(os.path.realpath(__file__))
sys.path.insert(0, os.path.join(HERE, "../../python/src"))
import matplotlib
import sancus

matplotlib.use("svg")
matplotlib.rcParams.update({"svg.fonttype": "none", "svg.hashsalt": "sancus", "font.size": 10})
from matplotlib import pyplot

FIRST, LAST = 11, 28
CURVES = {"module_1": ("#9cc3ee", 9), "module_0": ("#1f4f8f", 2), "plain_1": ("#e08e0b", 7), "plain_0": ("#a52a1c", 2)}
images = {name: sancus.Image.load(f"{HERE}/{name}.img") for name in CURVES}
waits = {(row["image"], row["pulse"]): row["latency"] for row in sancus.sweep(images, range(FIRST, LAST + 1), limit=120, jobs=1)}
figure, (top, low) = pyplot.subplots(2, 1, sharex=True, figsize=(8.6, 6.2), height_ratios=(3, 2), layout="constrained")
for name, (colour, width) in CURVES.items():
    values = [waits[name, cycle] for cycle in range(FIRST, LAST + 1)]
    label = name.replace("module_", "module, secret ").replace("plain_", "plain code, secret ")
    top.stairs(values, range(FIRST, LAST + 2), color=colour, linewidth=width, label=label, baseline=None)
for cycle in range(FIRST, LAST + 1):
    if waits["plain_0", cycle] != waits["plain_1", cycle]:
        top.axvspan(cycle, cycle + 1, color="#fbe9d0", zorder=0)
top.set(title="Cycles from an interrupt to the first instruction of its handler", ylim=(5, 14), yticks=range(6, 13, 2))
top.legend(loc="upper right", ncols=2)
for n, name in ((0, "plain_0"), (1, "plain_1")):
    for step in images[name].steps(cycles=LAST + 1).steps:
        if step.cycle >= FIRST - 1:
            low.text(max(step.cycle, FIRST) + 0.5, n + 0.5, step.text, rotation=90, ha="center", va="center", size=7, family="monospace")
low.set(title="What the plain code runs in these cycles", xlabel="in cycle", xlim=(FIRST, LAST + 1), ylim=(0, 2),
        xticks=[cycle + 0.5 for cycle in range(FIRST, LAST + 1)], xticklabels=range(FIRST, LAST + 1),
        yticks=(0.5, 1.5), yticklabels=("secret 0", "secret 1"))
figure.savefig(sys.argv[1] if len(sys.argv) > 1 else f"{HERE}/latency.svg", metadata={"Date": None})
