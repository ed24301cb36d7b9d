#!/usr/bin/env python3
"""Writes the sentences of tools/why for the pages: web/reasons.py > web/reasons.json"""
import json
import os
import sys

sys.dont_write_bytecode = True
sys.path.insert(0, os.path.join(os.path.dirname(os.path.realpath(__file__)), "../tools"))
import reasons

TABLES = {name.lower(): getattr(reasons, name) for name in ("FILES", "SOURCES", "LINKS", "LINES", "WORDS")}
print(json.dumps(TABLES, indent=0))
