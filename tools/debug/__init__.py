"""The debugger on the proved machine: what tools/gdb is made of."""
