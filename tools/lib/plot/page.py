"""The pictures of tools/plot as one page for a browser, which fetches nothing: plotly is in it."""

import html
import math
import re
import site

from lib.plot import pictures
from lib.tool import fail

site.main()  # the tools begin without Debian's packages, which takes less time
try:
    from plotly import graph_objects
    from plotly.offline import get_plotlyjs
except ModuleNotFoundError:
    fail("plotly is missing: apt-get install python3-plotly")

SYMBOLS = ("circle", "square", "triangle-up", "triangle-down", "diamond", "circle-open",
           "square-open")
DASHES = ("solid", "dash", "dot", "dashdot", "longdash", "longdashdot", "8px,3px,2px,3px,2px,3px")
UUID = re.compile("[0-9a-f]{8}(-[0-9a-f]{4}){3}-[0-9a-f]{12}")
# what may be chosen for a picture: its word, its name after the page's '#', and the choices' texts
BLOCK_SIZE = ("Block size", "bsize", pictures.bytes_text)
WAYS = ("Associativity", "ways", pictures.ways_text)
FONT = "system-ui, 'DejaVu Sans', Verdana, sans-serif"
CLEAR, BLANK = "rgba(0,0,0,0)", "\N{NO-BREAK SPACE}"
EDGE = {"color": "#222222", "width": 1}  # of areas and bars
# How all is laid out.
LAYOUT = {
    "template": "none", "font": {"family": FONT, "size": 14, "color": "#222"}, "barmode": "stack",
    "hovermode": "closest", "hoverlabel": {"align": "left"}, "paper_bgcolor": CLEAR,
    "plot_bgcolor": CLEAR, "modebar": {"bgcolor": CLEAR, "color": "#999", "activecolor": "#222"},
    "margin": {"t": 40, "r": 20, "b": 60, "l": 60},
    "legend": {"orientation": "h", "x": 0, "y": 1, "yanchor": "bottom",
               "traceorder": "normal"}}
# Whatever plotly might ask for, the browser must not fetch it.
POLICY = ("default-src 'none'; script-src 'unsafe-inline'; style-src 'unsafe-inline'; "
          "img-src data: blob:")
# In the dark a picture has the opposite lightness, but the same hues.
STYLE = f"""
:root {{ color-scheme: light dark; overflow-y: scroll }}
body {{ font: 16px {FONT}; margin: 1em auto; max-width: 70em; padding: 0 1em }}
h1 {{ font-size: 1.4em }}
h2 {{ font-size: 1em; margin: 1.5em 0 .5em }}
select {{ font: inherit }}
section {{ overflow: hidden; break-inside: avoid }}
@media screen and (prefers-color-scheme: dark) {{
    body {{ background: #181a1b; color: #e4e4e4 }}
    .plotly-graph-div {{ filter: invert(.9) hue-rotate(180deg) brightness(1.25) }}
}}
@media print, (max-width: 640px) {{ .modebar {{ display: none !important }} }}
@media print {{
    label, .screen {{ display: none }}
    .plotly-graph-div {{ height: 330px !important }}
}}
"""
SCRIPT = """
const asked = new URLSearchParams(location.hash.slice(1));
for (const menu of document.querySelectorAll("select")) {
    const plot = document.getElementById(menu.dataset.for);
    const show = () => {
        const [chosen] = menu.selectedOptions;
        menu.closest("section").querySelector("h2").textContent = chosen.dataset.title;
        Plotly.restyle(plot, {visible: plot.data.map(trace => trace.meta == menu.value)});
    };
    menu.onchange = () => {
        asked.set(menu.name, menu.value);
        location.replace("#" + asked);
        show();
    };
    if ([...menu.options].some(option => option.value == asked.get(menu.name))) {
        menu.value = asked.get(menu.name);
        show();
    }
}
const sized = (width, height) => document.querySelectorAll(".plotly-graph-div").forEach(
    plot => Plotly.relayout(plot, {width, height}));
onbeforeprint = () => sized(680, 330);
onafterprint = () => sized(null, null);
"""


def plain(words):
    """A text for plotly, which takes some of HTML."""
    return html.escape(words, quote=False).replace("\n", "<br>")


def about(point, line, measure):
    """What the pointer shows of a cache."""
    number = "{:.4g}" if measure.is_percent else "{:.10g}"
    ends = point.y - point.below, point.y + point.above
    spread = " ({} to {})".format(*map(number.format, ends)) if point.below or point.above else ""
    name = f"{line.name}\n" * (line.style in ("marks", "curve", "steps") and bool(line.name))
    return plain(f"{name}{point.told()[0]}\n{measure.up}: {number.format(point.y)}{spread}")


def trace(number, line, colour, up, measure, mono):
    """A line of a picture as plotly has it. None cuts it."""
    some, is_area = pictures.standing(line, up).points, line.style == "area"
    given = {"x": [point and point.x for point in some],
             "y": [point and point.y for point in some], "name": plain(line.name),
             "hovertext": [point and about(point, line, measure) for point in line.points],
             "hoverinfo": "text", "showlegend": bool(line.name)}
    if line.style == "bar":
        return graph_objects.Bar(given, marker={"color": colour, "line": EDGE})
    if any(point and (point.below or point.above) for point in some):
        given["error_y"] = {
            "type": "data", "symmetric": False, "color": colour, "thickness": 1,
            "array": [point and point.above for point in some],
            "arrayminus": [point and point.below for point in some]}
    if is_area:
        given.update(fill="tozeroy", fillcolor=colour)
    is_step, is_small = line.style in ("front", "steps"), line.style in ("front", "dots", "tail")
    return graph_objects.Scatter(
        given, mode={"dots": "markers", "curve": "lines", "tail": "lines"}.get(
            line.style, "lines+markers"),
        line=EDGE if is_area else {"color": colour, "shape": "hv" if is_step else "linear",
                                   "dash": DASHES[number] if mono and not is_small else "solid"},
        marker={"color": EDGE["color"] if is_area else colour, "size": {
            "area": 4, "dots": 5, "front": 7}.get(line.style, 8),
                "symbol": "circle" if is_area or is_small else SYMBOLS[number]})


def axis(ends, words):
    """An axis as plotly has it."""
    measure = math.log10 if ends.log else float
    places, texts = zip(*ends.ticks)
    return {"type": "log" if ends.log else "linear", "tickvals": places, "ticktext": texts,
            "range": [measure(ends.low), measure(ends.high)], "zeroline": False,
            "title": {"text": plain(words), "standoff": 12, "font": {"size": 14}},
            "automargin": True, "gridcolor": "#e4e4e4", "tickangle": 0, "tickfont": {"size": 12},
            "ticks": "outside", "tickcolor": CLEAR}


def size_axis(picture):
    """One of sizes with a line for each power of two, and texts where a narrow page has room."""
    few, every = (pictures.size_axis(picture, closest) for closest in (0.12, 0.03))
    return every._replace(ticks=[(value, dict(few.ticks).get(value, BLANK))
                                 for value, _ in every.ticks])


def figure(picture, up, measure, mono):
    """A picture as plotly has it, with all that may be chosen instead."""
    traces = []
    across = size_axis(picture._replace(
        lines=[line for one in picture.offered.values() for line in one.lines]))
    for choice, one in picture.offered.items():
        for number, (line, colour) in enumerate(one.coloured(mono)):
            made = trace(number, pictures.seen(line, across, up), colour, up, measure, mono)
            traces.append(made.update(meta=choice, visible=choice == picture.fixed))
    return graph_objects.Figure(traces, LAYOUT).update_layout(
        xaxis=axis(across, picture.across), yaxis=axis(up, measure.up),
        legend_title={"text": picture.legend, "font": {"size": 14}})


def section(picture, up, measure, mono):
    """The part of the page for a picture, with the menu of what it may fix."""
    menu = ""
    if len(picture.offered) > 1:
        word, name, text = WAYS if picture.name in pictures.BY_WAYS else BLOCK_SIZE
        options = "".join(f"<option value={fixed} data-title=\"{html.escape(one.title)}\""
                          f"{' selected' * (fixed == picture.fixed)}>{text(fixed)}</option>"
                          for fixed, one in picture.offered.items())
        menu = (f"<label>{word} <select name={name} data-for={picture.name}>{options}</select>"
                "</label>")
    shown = figure(picture, up, measure, mono).to_html(
        full_html=False, include_plotlyjs=False, default_height="440px",
        config={"responsive": True, "displaylogo": False})
    return (f"<section>\n<h2>{html.escape(picture.title)}</h2>\n{menu}\n"
            f"{UUID.sub(picture.name, shown)}\n</section>\n")


def page(drawn, counts, asked):
    """The page with these pictures, given for each what may be chosen instead."""
    up = pictures.value_axis([one for picture in drawn.pictures
                              for one in picture.offered.values()], drawn.measure, 0.062)
    sections = [section(picture, up, drawn.measure, asked.mono) for picture in drawn.pictures]
    heading = html.escape(asked.title or drawn.measure.name)
    return f"""<!DOCTYPE html>
<html lang="en">
<head>
<meta charset="utf-8">
<meta http-equiv="Content-Security-Policy" content="{POLICY}">
<meta name="viewport" content="width=device-width">
<title>{heading}</title>
<style>{STYLE}</style>
<script>{get_plotlyjs()}</script>
</head>
<body>
<h1>{heading}</h1>
<p>{counts}.<span class=screen> A point shows its cache. Drag to zoom in, click twice to go back.
</span></p>
{"".join(sections)}<script>
{SCRIPT}</script>
</body>
</html>
"""
