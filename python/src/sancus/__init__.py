"""The proved Sancus/MSP430 machine in Python.

    image = sancus.link("layout.toml", ["vault.o"])
    secrets = {str(n): image.poke("vault.key", n) for n in range(4)}
    print(sancus.sweep(secrets, range(100, 200), limit=1000).differ())

Addresses are numbers from 0 to 0xFFFF, cycles numbers from 0, modules are named by their id, from 1.
"""
from .attack import Attack, Plan, Target
from .errors import BadFile, Damaged, Died, NoLink, NoMemory, ProgramMissing, Refused, SancusError
from .hunting import Found, Hunted, hunt
from .image import Image, Module, assemble, attest, link
from .layout import Layout
from .maps import Map, Symbol
from .pool import OtherProgram, SchedulerLost
from .program import find
from .schedule import Schedule
from .steps import Access, Step, Steps
from .sweeping import Results, latency, sweep
from .terms import Arms, Terms
from .trace import Close, End, Enter, Event, Handler, Hide, Irq, Leave, Out, Protect, Resume, Reti, Stop, Trace
from .verdict import Verdict

__all__ = [
    "Access", "Arms", "Attack", "BadFile", "Close", "Damaged", "Died", "End", "Enter", "Event", "Found", "Handler",
    "Hide", "Hunted", "Image", "Irq", "Layout", "Leave", "Map", "Module", "NoLink", "NoMemory", "OtherProgram", "Out",
    "Plan", "ProgramMissing", "Protect", "Refused", "Results", "Resume", "Reti", "SancusError", "Schedule",
    "SchedulerLost", "Step", "Steps", "Stop", "Symbol", "Target", "Terms", "Trace", "Verdict", "assemble", "attest",
    "find", "hunt", "latency", "link", "sweep",
]
__version__ = "1.6.0"
