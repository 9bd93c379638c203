#!/usr/bin/env python3
"""Tests of tools/wide_area.py on lines made by hand. Run it: tools/wide_area_test.py"""
import contextlib
import io
import tempfile
import unittest
from unittest import mock

import wide_area

LINE = "{} {} ms {} % seed {} {}: {} of 2000000 bytes in {} s; {} packets, 3 lost, 2 sent again, 1 repeated; no room for 0\n"
# Three seeds of one way, of which two aren't done in time; two seeds of another, and one seed of a third
LINES = [
    LINE.format("echo", 50, 0, 1, "ftnode-wan", 2000000, "2.000", 7000),
    LINE.format("echo", 50, 0, 2, "ftnode-wan", 1000000, "20.000", 4000),
    LINE.format("echo", 50, 0, 3, "ftnode-wan", 600000, "20.000", 4000),
    LINE.format("echo", 50, 0, 1, "kernel-reno-bare", 2000000, "1.000", 3000),
    LINE.format("echo", 50, 0, 2, "kernel-reno-bare", 2000000, "4.000", 4001),
    LINE.format("echo", 50, 1, 1, "ftnode-plain", 2000000, "0.100", 5000),
    "relay: up\n",
]
# 0.05 is the middle of 1, 0.05 and 0.03 MB a second, 1.25 that of 2 and 0.5
MEDIANS = [
    ("echo", 50, 0.0, "ftnode-wan", 0.05, True, 7000),
    ("echo", 50, 0.0, "kernel-reno-bare", 1.25, False, 3500.5),
    ("echo", 50, 1.0, "ftnode-plain", 20.0, False, 5000),
]
TABLES = """
| echo, MB a second | `ftnode`, plain | `ftnode`, wan | bare, reno |
|---|---|---|---|
| 50 ms, 0 % |  | 0.05* | 1.25 |
| 50 ms, 1 % | 20.0 |  |  |

| packets, without loss | `ftnode`, wan | bare, reno |
|---|---|---|
| echo, 50 ms | 7,000 | 3,500 |

| beside bare sockets with the same congestion control | `ftnode`, wan | reno, wan | bbr, wan | goal |
|---|---|---|---|---|
| speed, echo, 50 ms, 0 % | **0.04** |  |  | at least 0.5 |
| speed, echo, 50 ms, 1 % |  |  |  | at least 0.5 |
| packets, echo, 50 ms, 0 % | **2.00** |  |  | at most 1.4 |
"""


class Pages(unittest.TestCase):
    def test_lines(self):
        with tempfile.NamedTemporaryFile("w", suffix=".lines") as file:
            file.writelines(["# Measured\n", "# today.\n", *LINES])
            file.flush()
            self.assertEqual(wide_area.notes_of(file.name), ["Measured", "today."])
            medians = list(wide_area.medians_of(file.name))
        self.assertEqual([(*median[:4], round(median.speed, 9), *median[5:]) for median in medians], MEDIANS)
        self.assertTrue(wide_area.page([], medians).endswith(TABLES), wide_area.page([], medians))

    def test_notes(self):
        self.assertIn("`bench/wan.py run` printed. Measured today.\n", wide_area.page(["Measured", "today."], [wide_area.Median(*MEDIANS[0])]))

    def test_goals(self):
        """A speed of half and 1.4 times the packets are right still; bbr is compared with bbr."""
        rows = [("ftnode-wan", 0.5, 1400), ("bbr-to-wan", 1.0, 1000), ("kernel-reno-bare", 1.0, 1000), ("kernel-bbr-bare", 2.5, 500)]
        medians = [wide_area.Median("download", 50, 0.0, way, speed, False, packets) for way, speed, packets in rows]
        lines = list(wide_area.goals_of(medians))[2:]
        self.assertEqual(lines, ["| speed, download, 50 ms, 0 % | 0.50 |  | **0.40** | at least 0.5 |", "| packets, download, 50 ms, 0 % | 1.40 |  | **2.00** | at most 1.4 |"])

    def test_kept_page(self):
        """The page in docs is what the tool prints."""
        out = io.StringIO()
        with mock.patch("sys.argv", ["wide_area.py", "--check"]), contextlib.redirect_stdout(out):
            self.assertEqual(wide_area.main(), 0, out.getvalue())


if __name__ == "__main__":
    unittest.main()
