#!/usr/bin/python3
"""draw.py [FILE.svg]: how long an interrupt waits in each cycle of the keypad's two looks, for both secrets.

All that is drawn comes from runs. Needs matplotlib; FILE.svg is latency.svg beside this script where it is left out."""
import os
import sys
import tempfile

HERE = os.path.dirname(os.path.realpath(__file__))
sys.path.insert(0, os.path.join(HERE, "../../../python/src"))
import matplotlib
import sancus

matplotlib.use("svg")
matplotlib.rcParams.update({"svg.fonttype": "none", "svg.hashsalt": "sancus", "font.size": 10})
from matplotlib import pyplot

PULSES = range(5, 120)
with tempfile.TemporaryDirectory() as room:
    for name in ("keypad", "return", "pressed", "released"):
        sancus.assemble(f"{HERE}/{name}.txt", f"{room}/{name}.o")
    images = {secret: sancus.link(f"{HERE}/layout.toml", [f"{room}/{name}.o" for name in ("keypad", "return", secret)])
              for secret in ("pressed", "released")}
results = sancus.sweep(images, PULSES, limit=300, jobs=1)
inside = images["pressed"].run(cycles=300)
figure, axes = pyplot.subplots(figsize=(8.6, 3.6), layout="constrained")
for secret, colour, width in (("pressed", "#e08e0b", 6), ("released", "#1f4f8f", 2)):
    waits = [row["latency"] or 0 for row in results if row["image"] == secret]
    axes.stairs(waits, range(PULSES.start, PULSES.stop + 1), color=colour, linewidth=width, label=secret, baseline=None)
for cycle in results.differ():
    axes.axvspan(cycle, cycle + 1, color="#fbe9d0", zorder=0)
for enter, leave in zip(inside.of(sancus.Enter), inside.of(sancus.Leave)):
    axes.axvspan(enter.cycle, leave.cycle, color="#eef3fa", zorder=0, label="inside the module")
axes.set(title="Cycles from an interrupt to its handler", xlabel="in cycle", xlim=(PULSES.start, PULSES.stop), ylim=(4, 16))
axes.legend(loc="upper left", ncols=3)
figure.savefig(sys.argv[1] if len(sys.argv) > 1 else f"{HERE}/latency.svg", metadata={"Date": None})
