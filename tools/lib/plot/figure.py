"""The pictures of tools/plot by matplotlib: PNG, SVG, PDF, EPS and PGF."""

import atexit
import contextlib
import io
import logging
import math
import os
import shutil
import site
import textwrap
import warnings

from lib import tool
from lib.plot import pictures


def remove(folder, spare):
    """Removes a folder that matplotlib made for its fonts, also where there is no descriptor but
    the one that is kept for this; its own way needs more."""
    with contextlib.suppress(OSError):
        os.close(spare)
        for name in os.listdir(folder):
            os.unlink(os.path.join(folder, name))
        os.rmdir(folder)


site.main()  # the tools begin without Debian's packages, which takes less time
logging.getLogger("matplotlib").setLevel(logging.ERROR)  # it may keep its fonts elsewhere
os.environ.setdefault("OPENBLAS_NUM_THREADS", "1")  # which is said where there are none
is_named = "MPLCONFIGDIR" in os.environ
try:
    import matplotlib
    from matplotlib.backends.backend_pgf import LatexError
    from matplotlib.figure import Figure
    from matplotlib.ticker import NullFormatter, NullLocator
except ModuleNotFoundError:
    tool.fail("matplotlib is missing: apt-get install python3-matplotlib")
except (ImportError, OSError, RuntimeError) as fault:  # it wants a thread
    tool.fail(f"matplotlib can't be loaded: {fault}")
finally:
    if "MPLCONFIGDIR" in os.environ and not is_named:
        atexit.unregister(shutil.rmtree)
        atexit.register(remove, os.environ["MPLCONFIGDIR"], os.open(os.devnull, os.O_RDONLY))

MARKS = "os^vDos"
DASHES = ("-", (0, (5, 2)), (0, (1, 1.5)), (0, (5, 1.5, 1, 1.5)), (0, (9, 3)), (0, (3, 1.5)),
          (0, (5, 1.5, 1, 1.5, 1, 1.5)))
EDGE = {"edgecolor": pictures.BLACK, "linewidth": 0.5}  # of areas and bars
LETTER, LINE = 0.6, 1.25  # the width of a letter and the height of a line, by the type's size
LEAST = 36, 11  # letters and lines that a picture needs
# the first that has a letter draws it
FONTS = ["DejaVu Sans", "Verdana", "Noto Sans CJK JP", "Droid Sans Fallback", "sans-serif"]
# No setting of a user's changes a picture, and that of the same table is the same file.
LOOKS = {
    "axes.titlesize": "medium", "figure.titlesize": "large", "text.parse_math": False,
    "svg.fonttype": "none", "svg.hashsalt": "cachesim", "pdf.fonttype": 42, "ps.fonttype": 42,
    "pgf.rcfonts": False,
    "pgf.texsystem": "pdflatex", "pgf.preamble": r"\usepackage[T1]{fontenc}",
    "axes.spines.top": False, "axes.spines.right": False, "axes.edgecolor": "#606060",
    "axes.grid": True, "axes.axisbelow": True, "grid.color": "#e4e4e4", "xtick.direction": "in",
    "ytick.direction": "in", "legend.frameon": False, "legend.labelspacing": 0.25}
SCALED = ("lines.linewidth", "lines.markersize", "axes.linewidth", "grid.linewidth",
          *(f"{axis}tick.{part}" for axis in "xy" for part in (
              "major.size", "minor.size", "major.width", "minor.width", "major.pad")))
UNDATED = {".svg": {"metadata": {"Date": None}}, ".pdf": {"metadata": {"CreationDate": None}}}
# the letters that LaTeX takes for something else
LATEX = str.maketrans({**{letter: f"\\{letter}" for letter in "#$%&_{}"}, "-": "-{}", **{
    letter: f"\\text{name}{{}}" for letter, name in {
        "\\": "backslash", "~": "asciitilde", "^": "asciicircum", "<": "less", ">": "greater",
        "'": "quotesingle", "`": "asciigrave", '"': "quotedbl", "|": "bar"}.items()}})


class Canvas:
    """A figure with room for so many pictures, and its type, in pixels of 1/96 inch."""

    def __init__(self, asked, count):
        self.mono, self.ending = asked.mono, asked.ending
        is_print = asked.size.is_length if asked.size else asked.ending not in (".png", ".svg")
        # 14 pixels; for print 8 points, and 7 in a column
        is_column = asked.size and asked.size.width < 4.5 * 96
        self.em = asked.scale * ((7 if is_column else 8) / 0.75 if is_print else 14)
        sides = (672, None) if is_print else ((860, 480), (920, 420), (920, 800))[count - 1]
        width, height = asked.size[:2] if asked.size else (
            side and side * asked.scale for side in sides)
        self.is_narrow = width < pictures.NARROW * LETTER * self.em
        rows = [1] * count if self.is_narrow else ([1], [2], [2, 1])[count - 1]
        height = height or width * (
            0.8 * count if self.is_narrow else (0.56, 0.46, 0.87)[count - 1])
        if width < LEAST[0] * LETTER * self.em or height < len(rows) * LEAST[1] * LINE * self.em:
            tool.misused(f"--size is too small for {pictures.counted(count, 'picture')} with type "
                         "that can be read")
        self.unit = (300 if is_print else 96) / 96
        self.set_looks()
        dots = 96 * self.unit
        self.figure = Figure([round(side * self.unit) / dots for side in (width, height)], dots,
                             layout="constrained")
        if asked.title:
            title = textwrap.wrap(asked.title, int(width / self.em / LETTER / 1.3))
            self.figure.suptitle("\n".join(map(self.text, title)))
        frames = self.figure.subfigures(len(rows), 1, squeeze=False)[:, 0]
        self.places = [(part, part.subplots(), width / beside / self.em / LETTER)
                       for row, beside in zip(frames, rows)
                       for part in row.subfigures(1, beside, squeeze=False)[0]]

    def set_looks(self):
        matplotlib.rcdefaults()
        points = 0.75 * self.em
        matplotlib.rcParams.update(LOOKS)
        matplotlib.rcParams.update({
            "font.family": "serif" if self.ending == ".pgf" else FONTS,
            "font.size": points, "figure.constrained_layout.h_pad": points / 150,
            "figure.constrained_layout.w_pad": points / 150,
            "legend.handlelength": 3.2 if self.mono else 2.2,
            **{name: matplotlib.rcParams[name] * points / 10.5 for name in SCALED}})

    def text(self, words):
        """A text as it is drawn, which is text whatever its letters."""
        words = pictures.printable(words)
        return words.translate(LATEX) if self.ending == ".pgf" else words


def draw_line(canvas, axes, number, line, colour, x, y):
    """A line with its marks, and the bars from the least to the greatest of several seeds."""
    spread = [point for point in line.points if point and (point.below or point.above)]
    if spread:
        at, mean, _, below, above = zip(*spread)
        axes.errorbar(at, mean, (below, above), fmt="none", ecolor=colour,
                      capsize=0.3 * canvas.em)
    looks = {"color": colour, "marker": MARKS[number], "fillstyle": "none" if number > 4 else None}
    if line.style in ("front", "dots"):
        looks.update(marker="o", markersize=(0.3 if line.style == "front" else 0.18) * canvas.em)
    if line.style in ("front", "steps"):
        looks["drawstyle"] = "steps-post"
    if line.style in ("curve", "tail"):
        looks["marker"] = ""
    dash = DASHES[number] if canvas.mono and line.style not in ("front", "tail") else "-"
    return axes.plot(x, y, linestyle="" if line.style == "dots" else dash, **looks)


def draw(canvas, axes, picture, across, up):
    """All lines of a picture, areas on the earlier ones and bars on top of them; for its legend
    those with a name. Each has one in an SVG."""
    named = []
    for number, (line, colour) in enumerate(picture.coloured(canvas.mono)):
        line = pictures.standing(pictures.seen(line, across, up), up)
        x, y = zip(*[point[:2] if point else (math.nan, math.nan) for point in line.points])
        if line.style == "bar":
            feet = [sum(patches[at].get_height() for patches in axes.containers) for at in x]
            drawn = axes.bar(x, y, 0.7, feet, color=colour, **EDGE)
        elif line.style == "area":  # its edge is seen above all areas, of a single size as a mark
            drawn = [axes.fill_between(x, y, facecolor=colour, **EDGE)]
            axes.plot(x, y, color=pictures.BLACK, linewidth=0.05 * canvas.em, zorder=2.5,
                      marker="o" if len(x) == 1 else "")
        else:
            drawn = draw_line(canvas, axes, number, line, colour, x, y)
        named += drawn[:1] * bool(line.name)
        for artist in drawn:
            artist.set_gid(f"{picture.name}_{number + 1}")
    return named


def add_legend(canvas, axes, picture, columns, named):
    """The legend right of the picture or, where it is narrow and for a front, above it."""
    names = [line.name for line in picture.lines if line.name]
    if not names:
        return
    if canvas.is_narrow or picture.front:
        broadest = max(map(len, names)) + (9 if canvas.mono else 7)
        rows = math.ceil(len(names) / max(1, int((columns - 10) / broadest)))
        place = {"loc": "lower center", "bbox_to_anchor": (0.5, 1), "columnspacing": 1.5,
                 "ncol": math.ceil(len(names) / rows)}
    else:
        place = {"loc": "upper left", "bbox_to_anchor": (1.01, 1.02), "alignment": "left"}
    legend = axes.legend(named, ["name"] * len(named), borderaxespad=0,
                         title=canvas.text(picture.legend) or None, **place)
    for text, name in zip(legend.get_texts(), names):
        text.set_text(canvas.text(name))  # matplotlib leaves out what begins with '_'


def label_front(canvas, axes, picture, up):
    """Labels below and to the left of the caches of the front that have room for one."""
    inside, small = axes.get_window_extent(), 0.86 * canvas.em * canvas.unit
    boxes, kept = [], []
    for point in pictures.standing(pictures.Line("", picture.front), up).points:
        (x, y), label = axes.transData.transform((point.x, point.y)), point.told()[1]
        left, low, high = x - (len(label) + 1) * LETTER * small, y - 1.5 * small, y - 0.2 * small
        if label and left > inside.x0 and low > inside.y0 and all(
                left > box[2] or box[0] > x or low > box[3] or box[1] > high for box in boxes):
            boxes.append((left, low, x, high))
            kept.append((point.x, point.y))
            axes.annotate(canvas.text(label), kept[-1], (-0.4, -0.4), textcoords="offset fontsize",
                          fontsize=0.64 * canvas.em, ha="right", va="top")
    if kept:
        axes.plot(*zip(*kept), "o", color="black", fillstyle="none", markersize=0.45 * canvas.em,
                  gid="pareto_labelled")


def set_axes(axes, across, up):
    """The scales, ends and ticks of a picture."""
    for letter, axis in ("x", across), ("y", up):
        axes.set(**{f"{letter}scale": "log" if axis.log else "linear"})
        axes.set(**{f"{letter}lim": (axis.low, axis.high)})
        which = getattr(axes, f"{letter}axis")
        which.set_ticks(*zip(*axis.ticks))
        which.set_minor_formatter(NullFormatter())
        if letter == "x" or axis.foot or axis.high > 1e7 * axis.low:
            which.set_minor_locator(NullLocator())


def figure_of(drawn, asked):
    """The figure with all pictures. What room ticks and labels have is known when all else is laid
    out."""
    canvas = Canvas(asked, len(drawn.pictures))
    places = [(picture, *place) for picture, place in zip(drawn.pictures, canvas.places)]
    up = pictures.value_axis(drawn.pictures, drawn.measure, 0.1)
    for picture, part, axes, columns in places:
        across = pictures.size_axis(picture, 0.2)
        part.suptitle("\n".join(map(canvas.text, picture.title_lines(int(columns) - 2))),
                      fontsize="medium")
        axes.set(xlabel=canvas.text(picture.across), ylabel=canvas.text(drawn.measure.up))
        named = draw(canvas, axes, picture, across, up)
        set_axes(axes, across, up)
        add_legend(canvas, axes, picture, columns, named)
    layout = canvas.figure.get_layout_engine()
    layout.execute(canvas.figure)
    boxes = [axes.get_window_extent() for _, _, axes, _ in places]
    em = canvas.em * canvas.unit
    up = pictures.value_axis(drawn.pictures, drawn.measure,
                             1.3 * LINE * em / min(box.height for box in boxes))
    for (picture, _, axes, _), box in zip(places, boxes):
        set_axes(axes, pictures.size_axis(picture, 5.5 * LETTER * em / box.width), up)
    layout.execute(canvas.figure)
    for picture, _, axes, _ in places:
        label_front(canvas, axes, picture, up)
    if asked.ending != ".pgf":  # in which LaTeX says how broad a text is
        canvas.figure.set_layout_engine("none")
    return canvas.figure


def bytes_of(drawn, asked):
    """The file of a picture."""
    if asked.ending == ".pgf":
        tool.needs("pdflatex", "texlive-pictures")
    file, more = io.BytesIO(), UNDATED.get(asked.ending, {})
    with warnings.catch_warnings(record=True) as told:
        try:
            figure_of(drawn, asked).savefig(file, format=asked.ending[1:], **more)
        except (ValueError, LatexError) as fault:
            if asked.ending != ".pgf":
                raise
            tool.fail(f"LaTeX failed: {' '.join(str(fault).split())}")
        except (OSError, MemoryError) as fault:  # by an end at which that folder goes
            tool.fail(getattr(fault, "strerror", None) or "out of memory")
    for text in dict.fromkeys(str(one.message) for one in told):
        tool.warn(f"matplotlib: {text}")
    return file.getvalue()
