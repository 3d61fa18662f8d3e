"""Writes the page of the benchmark and its charts."""

from __future__ import annotations

import datetime
import os
import pathlib
import platform
import subprocess
import sys
from typing import Dict, Tuple

import numpy

from package import BUILD

# the best and the median time per row of each contender, in ns
Times = Dict[str, Tuple[float, float]]
# a case: its kernel, its number of rows, what is varied, and its times
Result = Tuple[str, int, str, Times]
# a row of a table: the time to that of the best peer, its name, the time to that of the copy, and the case
Row = Tuple[float, str, float, str, int, str, Times]

# why a row is slower than a peer, by a prefix of its kernel's name; the first match counts
CAUSES = (
    ("filter, bits", "the library is built for any processor of x86-64-v2, the loops for this one; the library counts the set bits of the mask first"),
    ("filter, lists", "the mask is read bit by bit, or by runs if most runs are long; bit by bit, each kept list is read twice, for its end and for its items"),
    ("filter, two fields", "the mask is read once for each field, as for a column of the field's type"),
    ("filter, views", "the library counts the set bits of the mask first, and shares each data buffer by a reference count"),
    ("filter", "the library is built for any processor of x86-64-v2, the loops and numpy use this one's instructions; the library counts the set bits of the mask first"),
    ("take, views", "each index is bounds-checked first, and each data buffer is shared by a reference count"),
    ("take, bits", "each index is bounds-checked first, and each read computes the byte and the bit in it"),
    ("take, lists", "each index is bounds-checked first; the start of each list is kept, so that its items are copied in a second pass: up to eight as eight, more by a call"),
    ("take, bytes", "each index is bounds-checked first; the start of each row is kept, so that its bytes are copied in a second pass: up to sixteen as sixteen, more by a call"),
    ("take, nulls", "the library is built for any processor of x86-64-v2, the loops and numpy use this one's instructions"),
    ("take", "each index is bounds-checked first; the loop checks none"),
    ("choose, views", "the library is built for any processor of x86-64-v2; where the buffer index of a view of the second column may change, the library tests whether the view is inline"),
    ("choose, 8 bytes", "a vector operation for any processor of x86-64-v2 works on two values, one of the loops, which are compiled for this processor, on more"),
    ("sublist_get", "each row reference is computed by an iterator that serves every type, and validity bits are packed next to the values"),
    ("fixed_get", "each row reference is computed by an iterator that serves every type"),
    ("flatten", "an iterator goes from column to column for each row, while the loop knows their widths"),
    ("collect_rows", "each row reference is bounds-checked first, in a pass of its own; the loop checks none"),
    ("propagate_dictionary", "each key is bounds-checked first; both results are new columns"),
)

# the rows of the summary: one for each kernel and kind of column, at 1,048,576 rows
SUMMARY = (
    ("filter, 8 bytes", "0.01 random"), ("filter, 8 bytes", "0.5 random"), ("filter, 8 bytes", "0.99 random"), ("filter, bits", "0.5 random"),
    ("filter, views", "0.5 random"), ("filter, lists", "0.5 random"), ("take, 8 bytes", "random"), ("take, bits", "random"),
    ("take, views", "random"), ("take, lists", "random"), ("choose, 8 bytes", "both columns"), ("sublist_get", "index 1"),
    ("fixed_get", "index 1 of four"), ("flatten", "two by four"), ("collect_rows", "random, of two"),
)
SUMMARY_ROWS = 2 ** 20

COLORS = (("sel", "#2a6fdb", "#7fb0ff"), ("loop", "#2f8f4e", "#7bd598"), ("numpy", "#b8681c", "#f0a860"), ("copy", "#777777", "#aaaaaa"))


def built_for() -> str:
    """Returns the processors that tools/clib.py has built the library for."""
    path = BUILD / "cpu"
    return path.read_text().strip() if path.exists() else "x86-64-v2"


def cause_of(kernel: str) -> str:
    """Returns the number of the cause in the list of causes, or that it is not known."""
    return next((str(number) for number, (start, _) in enumerate(CAUSES, 1) if kernel.startswith(start)), "not known")


def causes(rows: list[Row]) -> list[str]:
    """Returns the numbered list of the causes of these rows."""
    used = {cause_of(kernel) for _, _, _, kernel, _, _, _ in rows}
    return [f"{number}. {start}: {cause.replace('x86-64-v2', built_for())}." for number, (start, cause) in enumerate(CAUSES, 1) if str(number) in used]


def best_peer(times: Times) -> tuple[str, float]:
    return min(((name, each[0]) for name, each in times.items() if name in ("loop", "numpy")), key=lambda pair: pair[1])


def row_of(result: Result) -> Row:
    kernel, rows, varied, times = result
    name, peer = best_peer(times)
    ours = times["sel"][0]
    return ours / peer, name, ours / times["copy"][0], kernel, rows, varied, times


def processor() -> str:
    try:
        lines = pathlib.Path("/proc/cpuinfo").read_text().split("\n")
        return next(line.split(":", 1)[1].strip() for line in lines if line.startswith("model name"))
    except (OSError, StopIteration):
        return platform.processor() or platform.machine()


def version_of(words: list[str]) -> str:
    done = subprocess.run(words, stdout=subprocess.PIPE, stderr=subprocess.DEVNULL, text=True, check=False)
    return (done.stdout.split("\n") or [""])[0].strip()


def spread(times: Times) -> float:
    """Returns by which fraction the median of the library's times exceeds the best."""
    best, median = times["sel"]
    return median / best - 1


def ns(times: Times, name: str) -> str:
    if name not in times:
        return "-"
    best, median = times[name]
    return f"{best:.3f} ({median:.3f})"


def table(rows: list[Row], with_cause: bool) -> list[str]:
    head = "| kernel | rows | varied | sel | loop | numpy | copy | to the best peer | to the copy |" + (" cause |" if with_cause else "")
    lines = [head, "|" + "---|" * (head.count("|") - 1)]
    for ratio, name, to_copy, kernel, count, varied, times in rows:
        cells = [kernel, f"{count:,}", varied, *(ns(times, each) for each in ("sel", "loop", "numpy", "copy")), f"{ratio:.2f} ({name})", f"{to_copy:.2f}"]
        lines.append("| " + " | ".join(cells + ([cause_of(kernel)] if with_cause else [])) + " |")
    return lines


def summary(rows: list[Row]) -> list[str]:
    """Returns the table of the rows that SUMMARY names, in its order."""
    found = {(kernel, varied): row for row in rows for _, _, _, kernel, count, varied, _ in [row] if count == SUMMARY_ROWS}
    lines = ["| kernel | varied | this library | best peer | copy | library to best peer |", "|---|---|---|---|---|---|"]
    for kernel, varied in SUMMARY:
        ratio, name, _, _, _, _, times = found[kernel, varied]
        lines.append(f"| {kernel} | {varied} | {times['sel'][0]:.3f} | {times[name][0]:.3f} ({name}) | {times['copy'][0]:.3f} | {ratio:.2f} |")
    return lines


def machine(load: list[float], compiler: str, flags: list[str]) -> list[str]:
    cores = os.cpu_count() or 1
    busy = max(load)
    lines = [
        f"- Machine: {processor()}, {cores} cores; {platform.system()} {platform.release()}; one core is used, in one process, and the contenders take turns in each round.",
        f"- Date: {datetime.date.today().isoformat()}. Library: proved, built by the toolchain for {built_for()}. Loops: `{version_of([compiler, '--version'])}` with `{' '.join(flags[:2])}`. "
        f"Python {sys.version.split()[0]}, numpy {numpy.__version__}.",
        f"- Reported load of the machine (1 is this process): {', '.join(f'{each:.1f}' for each in load)}.",
    ]
    if busy > 1.5:
        lines.append(f"- **Other processes shared the machine** (load up to {busy:.1f} on {cores} cores): these times do not repeat within 10 percent; ratios are a better guide.")
    return lines


def chart(path: pathlib.Path, title: str, labels: list[str], lines: dict[str, list[float]]) -> None:
    """Draws a line chart with evenly spaced labels and a logarithmic time axis."""
    import math

    values = [value for line in lines.values() for value in line if value > 0]
    low, high = math.floor(math.log10(min(values))), math.ceil(math.log10(max(values)))
    width, height, left, top = 640, 360, 76, 40
    across = (width - left - 110) / max(1, len(labels) - 1)
    up = (height - top - 50) / max(1, high - low)

    def x(place: int) -> float:
        return left + place * across

    def y(value: float) -> float:
        return height - 50 - (math.log10(value) - low) * up

    parts = [f'<svg xmlns="http://www.w3.org/2000/svg" viewBox="0 0 {width} {height}" font-family="sans-serif" font-size="12" role="img" aria-label="{title}">', "<style>",
             "text { fill: #222 } .axis { stroke: #999; stroke-width: 1 } .grid { stroke: #ddd; stroke-width: 1 }"]
    parts += [f".{name} {{ stroke: {light}; fill: {light} }} polyline.{name} {{ fill: none; stroke-width: 2 }} text.{name} {{ stroke: none }}" for name, light, _ in COLORS]
    parts.append("@media (prefers-color-scheme: dark) { text { fill: #eee } .grid { stroke: #444 }")
    parts += [f".{name} {{ stroke: {dark}; fill: {dark} }} polyline.{name} {{ fill: none }} text.{name} {{ stroke: none }}" for name, _, dark in COLORS]
    parts += ["}", "</style>", f'<text x="{left}" y="22" font-size="14">{title}</text>']
    for power in range(low, high + 1):
        at = height - 50 - (power - low) * up
        parts.append(f'<line class="grid" x1="{left}" x2="{width - 110}" y1="{at:.1f}" y2="{at:.1f}"/><text x="{left - 8}" y="{at + 4:.1f}" text-anchor="end">{10.0 ** power:g} ns</text>')
    for place, label in enumerate(labels):
        parts.append(f'<text x="{x(place):.1f}" y="{height - 28}" text-anchor="middle">{label}</text>')
    parts.append(f'<line class="axis" x1="{left}" x2="{width - 110}" y1="{height - 50}" y2="{height - 50}"/>')
    drawn = [name for name, _, _ in COLORS if name in lines]
    for name in drawn:
        points = " ".join(f"{x(place):.1f},{y(value):.1f}" for place, value in enumerate(lines[name]) if value > 0)
        parts.append(f'<polyline class="{name}" points="{points}"/>')
    below = 0.0
    for name in sorted(drawn, key=lambda name: y(lines[name][-1])):
        below = max(y(lines[name][-1]), below + 13)
        parts.append(f'<text class="{name}" x="{width - 100}" y="{below + 4:.1f}">{name}</text>')
    path.write_text("\n".join(parts + ["</svg>"]) + "\n")


def lines_of(results: list[Result]) -> dict[str, list[float]]:
    names = [name for name, _, _ in COLORS if all(name in times for _, _, _, times in results)]
    return {name: [times[name][0] for _, _, _, times in results] for name in names}


def charts(docs: pathlib.Path, results: list[Result], scale: list[Result]) -> None:
    densities = [each for each in results if each[0] == "filter, 8 bytes" and each[1] > 2 ** 16 and each[2].split()[-1] == "random"]
    chart(docs / "bench-density.svg", "Filter of 1,048,576 8-byte values: ns per row, by the share of rows kept", [each[2].split()[0] for each in densities], lines_of(densities))
    for kernel, name in (("filter", "filter"), ("take", "take")):
        found = [each for each in scale if each[0].startswith(kernel)]
        labels = [f"2^{each[1].bit_length() - 1}" for each in found]
        chart(docs / f"bench-{name}-size.svg", f"{kernel.capitalize()} of 8-byte values: ns per row, by the number of rows", labels, lines_of(found))


def write(docs: pathlib.Path, results: list[Result], scale: list[Result], beside: list[str], sections: list[str], load: list[float], compiler: str, flags: list[str]) -> None:
    rows = sorted((row_of(each) for each in results), key=lambda row: -row[0])
    worse, others = [row for row in rows if row[0] > 1], [row for row in rows if row[0] <= 1]
    repeats = sum(spread(each[3]) <= .1 for each in results)
    text = ["# Benchmarks", "", "`make bench` writes this page. Times are ns per row of the first column: the best of many rounds, and the median in parentheses. "
            "Each result was compared with numpy's before it was timed, and each contender makes the whole result, with its memory. "
            "`loop` is a plain C loop, compiled for this processor; `numpy` is the numpy operation, called from Python, if there is one; `copy` moves as many bytes as any implementation must read and write.", ""]
    text += beside
    text += (pathlib.Path(__file__).parent / "tried.md").read_text().splitlines()
    text += ["## Summary", "", f"Best times in ns per row at {SUMMARY_ROWS:,} rows; the kernel `choose` is if-then-else.", "", *summary(rows), ""]
    text += ["![Time of a filter by the share of rows kept](bench-density.svg)", "", "![Time of a filter by the number of rows](bench-filter-size.svg)", "",
             "![Time of a take by the number of rows](bench-take-size.svg)", ""]
    text += ["## Machine", "", *machine(load, compiler, flags),
             f"- Of {len(results)} rows, the library's median is within 10 percent of its best in {repeats}.", ""]
    text += [f"## Slower than the best peer: {len(worse)} of {len(rows)} rows", "", "The last column is the number of the cause:", "", *causes(worse), "",
             *table(worse, True), ""]
    text += [f"## As fast or faster: {len(others)} rows", "", *table(others, False), ""]
    text += ["## By the number of rows", "", *table([row_of(each) for each in scale], False), "", *sections]
    (docs / "BENCHMARKS.md").write_text("\n".join(text))
    charts(docs, results, scale)
