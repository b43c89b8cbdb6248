"""What the study found, as plots: the figures of its tables, drawn by matplotlib.

Each plot is one of data, which a pure function takes from the figures, and of a function that draws such data.
"""
from __future__ import annotations

from dataclasses import dataclass
from io import BytesIO
from pathlib import Path
from typing import Any, Callable, Dict, List, Mapping, Optional, Sequence

from ..errors import ToolError
from ..files import told_of, write_whole
from .choices import ALL, FUNCTIONS, LINES, SELECT
from .figures import CHOICES, COMMANDS, Figures, differ_in, missed_in, run_in, sum_of, tests_in
from .table import break_even, median_cost, with_all

NAMES = ("run-again.svg", "missed.svg", "costs.svg")

INSTALL = "apt-get install python3-matplotlib, for Debian's /usr/bin/python3, or python3 -m pip install matplotlib"

DIFFER, RUNS_ALL, PAYS = "really differ", "gcc's build runs all tests", "a selection pays from here on"

# The colours of M. Okabe and K. Ito, which the colour-blind tell apart; bars differ by their hatches too, and points by
# their forms.
COLOURS = {
    ALL: "#bbbbbb", FUNCTIONS: "#e69f00", LINES: "#56b4e9", SELECT: "#009e73", DIFFER: "#000000",
    RUNS_ALL: "#000000", "`record`": "#0072b2", "`adopt`": "#d55e00", PAYS: "#aa3377",
}
HATCHES = {FUNCTIONS: "//", LINES: "\\\\"}
FORMS = {RUNS_ALL: "o", SELECT: "s", "`record`": "^", "`adopt`": "D", PAYS: "|"}
SIZES = {PAYS: 16}  # in points, where it isn't 7

# Texts as outlines, so that a plot looks the same everywhere; names within an SVG by a salt, so that it has the same
# bytes each time.
STYLE = {"svg.hashsalt": "dejavu study", "svg.fonttype": "path", "hatch.linewidth": 0.6, "font.size": 10}


@dataclass(frozen=True)
class Data:
    """The data of a plot: for each group a value of each series, or none."""

    title: str
    axis: str  # what the values are, with their unit
    groups: Sequence[str]
    series: Mapping[str, Sequence[Optional[float]]]


# ---- data


def run_again(figures: Figures) -> Data:
    """The share of the tests that each choice runs again, and of those that differ, in percent."""
    groups = with_all(figures.of_programs())
    counted: Dict[str, List[int]] = {choice: [run_in(it, choice) for it in groups.values()] for choice in CHOICES}
    counted[DIFFER] = [differ_in(it) for it in groups.values()]
    tests = [tests_in(it) for it in groups.values()]
    shares = {name: [100 * part / max(1, whole) for part, whole in zip(parts, tests)] for name, parts in counted.items()}
    return Data("Which share of the tests runs again after a change", "tests, in % of all", list(groups), shares)


def missed(figures: Figures) -> Data:
    """How many tests that differ each choice leaves."""
    groups = with_all(figures.of_programs())
    counts = {choice: [missed_in(it, choice) for it in groups.values()] for choice in CHOICES}
    return Data("Tests that differ and aren't run again", "tests, over all changes", list(groups), counts)


def costs(figures: Figures) -> Data:
    """The processor time of all tests' runs by gcc's build and of each command, and from when on a selection pays."""
    groups = figures.of_programs()
    times: Dict[str, List[Optional[float]]] = {RUNS_ALL: [program.ran.milliseconds for program in figures.programs]}
    for command in reversed(COMMANDS):
        times[f"`{command}`"] = [median_cost(group, command).milliseconds or None for group in groups.values()]
    times[PAYS] = [break_even(group) for group in groups.values()]
    return Data("What a selection costs beside a run of all tests", "milliseconds of processor time, on a logarithmic axis", list(groups), times)


# ---- drawing


def plotter() -> Callable[[Path, Figures], None]:
    """What writes the plots into a folder; a `ToolError` where matplotlib is missing, with the lines that install it."""
    try:
        import matplotlib
    except ImportError as error:
        raise ToolError(f"--plots wants matplotlib: {INSTALL}") from error
    matplotlib.use("Agg")
    return plot


def plot(folder: Path, figures: Figures) -> None:
    """Writes all plots; a `ToolError` where that can't be. The same figures give the same bytes."""
    kinds = ((bars, run_again), (bars, missed), (points, costs))
    texts = [drawn_as(draw, data(figures), sum_of(figures)) for draw, data in kinds]
    with told_of(folder):
        folder.mkdir(parents=True, exist_ok=True)
    write_whole({folder / name: text for name, text in zip(NAMES, texts)})


def drawn_as(draw: Callable[[Any, Data], None], data: Data, source: str) -> bytes:
    """The SVG of data on a white ground; `source` says in it what it is drawn from."""
    from matplotlib import pyplot, rc_context

    with rc_context(STYLE):
        figure, axes = pyplot.subplots(figsize=(9, 4.5), layout="constrained")
        draw(axes, data)
        axes.set_title(data.title)
        axes.set_axisbelow(True)
        axes.legend(loc="upper center", bbox_to_anchor=(0.5, LEGEND[draw]), ncol=len(data.series), frameon=False)
        text = BytesIO()
        told = {"Title": data.title, "Source": source, "Date": None, "Creator": None}
        figure.savefig(text, format="svg", facecolor="white", metadata=told)
        pyplot.close(figure)
    return text.getvalue()


def bars(axes: Any, data: Data) -> None:
    """Draws the series of each group as bars beside each other; where values are counts, they stand above."""
    width = 0.84 / len(data.series)
    for number, (name, values) in enumerate(data.series.items()):
        places = [at + (number + 0.5) * width - 0.42 for at in range(len(data.groups))]
        drawn = axes.bar(places, values, width, label=name.strip("`"), color=COLOURS[name], hatch=HATCHES.get(name),
                         edgecolor="white", linewidth=0.3)
        if all(isinstance(value, int) for value in values):
            axes.bar_label(drawn, fontsize=7)
    axes.set_xticks(range(len(data.groups)), data.groups)
    axes.set_ylabel(data.axis)
    axes.grid(axis="y", linewidth=0.4)


def points(axes: Any, data: Data) -> None:
    """Draws the series of each group as points of one row, on a logarithmic axis."""
    rows = range(len(data.groups))
    for name, values in data.series.items():
        known = [(value, row) for value, row in zip(values, rows) if value is not None]
        places = [[value for value, _ in known], [row for _, row in known]]
        axes.plot(*places, FORMS[name], label=name.strip("`"), color=COLOURS[name], linestyle="none",
                  markersize=SIZES.get(name, 7), markeredgewidth=2 if name == PAYS else 1)
    axes.set_xscale("log")
    axes.xaxis.set_major_formatter("{x:,.0f}")
    axes.set_yticks(rows, data.groups)
    axes.invert_yaxis()
    axes.set_xlabel(data.axis)
    axes.grid(linewidth=0.4)


LEGEND = {bars: -0.08, points: -0.16}  # where it stands, in heights of the plot
