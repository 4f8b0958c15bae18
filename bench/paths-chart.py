#!/usr/bin/env python3
"""Draws what bench/paths prints, as SVG.

usage: bench/paths BEFORE.a AFTER.a | bench/paths-chart.py > docs/bench/by-path.svg
"""
import sys

rows = [line.rstrip("\n").split("\t") for line in sys.stdin][1:]
curves = [
    (name, colour, [(int(row[0]), float(row[column])) for row in rows if row[column]])
    for name, colour, column in (("before E2", "#c0392b", 1), ("after", "#1b6ca8", 2), ("two-byte letters", "#2e8b57", 3))
]
LEFT, TOP, RIGHT, BOTTOM = 70, 40, 550, 370
most = 5 * (int(max(y for _, _, points in curves for _, y in points)) // 5 + 1)


def x(value):
    return LEFT + value / 128 * (RIGHT - LEFT)


def y(value):
    return BOTTOM - value / most * (BOTTOM - TOP)


print('<svg xmlns="http://www.w3.org/2000/svg" viewBox="0 0 720 420" font-family="sans-serif" font-size="12">')
print('<rect width="720" height="420" fill="white"/>')
print(f'<text x="{LEFT}" y="22" font-size="15">The test "whole" on a full store, by the bytes of each path</text>')
for value in range(0, most + 1, 5):
    print(f'<path d="M{LEFT} {y(value):.1f}H{RIGHT}" stroke="#ddd"/>')
    print(f'<text x="{LEFT - 6}" y="{y(value) + 4:.1f}" text-anchor="end">{value} µs</text>')
for value in range(0, 129, 16):
    print(f'<path d="M{x(value):.1f} {TOP}V{BOTTOM}" stroke="#eee"/>')
    print(f'<text x="{x(value):.1f}" y="{BOTTOM + 18}" text-anchor="middle">{value}</text>')
print(f'<text x="{LEFT}" y="410">bytes of each path</text>')
for i, (name, colour, points) in enumerate(curves):
    line = "L".join(f"{x(a):.1f} {y(b):.1f}" for a, b in points)
    print(f'<path d="M{line}" fill="none" stroke="{colour}" stroke-width="2"/>')
    print(f'<path d="M{RIGHT + 10} {TOP + 10 + 20 * i}h20" stroke="{colour}" stroke-width="2"/>')
    print(f'<text x="{RIGHT + 36}" y="{TOP + 14 + 20 * i}">{name}</text>')
print("</svg>")
