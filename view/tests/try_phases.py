"""Assertions of the script that times the phases of calls."""
import importlib.util
import os
import unittest
from importlib.machinery import SourceFileLoader

TOP = os.path.dirname(os.path.dirname(os.path.dirname(os.path.abspath(__file__))))
LOADER = SourceFileLoader("phases", os.path.join(TOP, "bench", "phases"))
phases = importlib.util.module_from_spec(importlib.util.spec_from_loader("phases", LOADER))
LOADER.exec_module(phases)


class Rows(unittest.TestCase):
    """The lines of a table."""

    def test_what_was_found(self):
        calls = [(0.25, 0.125, 0.0625, 8.0), (0.5, 0.25, 0.125, 9.0), (1.0, 0.75, 0.25, 10.0)]
        self.assertEqual(phases.row("step", calls, 1000),
                         "| `step` | 500.0 ms | 250.0 ms | 250.00 us | 125.0 ms | 50 % | 9 MB |")
        self.assertEqual(phases.row("step", calls, 0),
                         "| `step` | 500.0 ms | 250.0 ms | none | 125.0 ms | 50 % | 9 MB |")

    def test_what_no_function_was_entered_for(self):
        self.assertEqual(
            phases.row("replay 4 steal", [(0.25, None, 0.0625, 8.0), (0.5, 0.25, None, 9.0)], 1000),
            "| `replay 4 steal` | 375.0 ms | not found | not found | not found | not found | 8 MB |")
        self.assertEqual(
            phases.row("replay 4 steal", [(0.25, None, 0.0625, 8.0)], 0),
            "| `replay 4 steal` | 250.0 ms | not found | none | 62.5 ms | not found | 8 MB |")
