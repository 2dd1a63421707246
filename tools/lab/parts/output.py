"""What `replay` writes of a picture: lines for a terminal, or a page."""

import json

from parts import tool
from parts.cache import MOST_WAYS
from parts.picture import to_memory, why

PAGE = f"{tool.HERE}/lab/parts/replay.html"
FEW_WAYS = 64  # a cache of so many ways is drawn with all of its sets


def totals(steps):
    outcomes = [step.outcome for step in steps]
    hits, evictions = outcomes.count("hit"), outcomes.count("miss eviction")
    return f"hits:{hits} misses:{outcomes.count('miss') + evictions} evictions:{evictions}"


def text_of(title, picture):
    """The lines for a terminal."""
    yield f"{title}: {picture.cache}"
    yield ("The last column has the ways of the set after the step: their tags, * dirty (changed "
           "since it came), [] evicted next, - free.")
    rows = [("line", "access", "address", "tag", "set", "offset", "outcome", "ways")]
    rows += [row_of(picture.cache, step) for step in picture.steps]
    widths = [max(map(len, column)) for column in zip(*rows)]
    aligned = "><>>>><<"
    for row in rows:
        words = (f"{word:{side}{width}}" for word, side, width in zip(row, aligned, widths))
        yield "  ".join(words).rstrip()
    yield totals(picture.steps)


def row_of(cache, step):
    """The words of a step for a terminal."""
    if step.access == "flush":
        written = f"{step.written_back} written back"
        return (str(step.line), "flush", "", "", "", "", written, "all free")
    outcome = step.outcome
    if step.evicted:
        outcome += f" of {cache.text(step.evicted.tag)}{'*' * step.evicted.dirty}"
    words = ["-" if block is None else f"{cache.text(block.tag)}{'*' * block.dirty}"
             for block in step.held]
    ways = " ".join(f"[{word}]" if way == step.next else word for way, word in enumerate(words))
    numbers = map(cache.text, (step.address, step.tag, step.set, step.offset))
    return (str(step.line), step.access, *numbers, outcome, ways)


def page_of(title, picture):
    """The page: the HTML beside this with the steps in it."""
    cache = picture.cache
    drawn = sorted({step.set for step in picture.steps if step.access != "flush"})
    if picture.only is not None:
        drawn = [picture.only]
    elif cache.sets * cache.ways <= FEW_WAYS:
        drawn = list(range(cache.sets))
    ways = len(drawn) * cache.ways
    if ways > MOST_WAYS:
        tool.fail(f"the sets of this trace have {ways:,} ways, and the limit of a page is "
                  f"{MOST_WAYS:,}: cut the trace, or use --text")
    data = {"title": title, "about": str(cache), "policy": cache.repl, "sets": drawn}
    data["base"] = 10 if cache.digits == "d" else 16
    data.update(allSets=cache.sets, ways=cache.ways)
    data.update(setBits=cache.sets.bit_length() - 1, blockBits=cache.block.bit_length() - 1)
    # what sets hold before the first step that is shown
    data["before"] = [{"set": step.set, "next": step.next,
                       "ways": [one and block_data(cache, one) for one in step.held]}
                      for step in picture.before.values()]
    data["steps"] = [step_data(cache, step) for step in picture.steps]
    # '<' could end the element that holds the data
    text = json.dumps(data).replace("<", "\\u003c")
    with open(PAGE, encoding="utf-8") as page:
        return page.read().replace("@DATA@", text)


def step_data(cache, step):
    """What the page has to know of a step. Addresses and tags of up to 64 bits are texts."""
    data = {"line": step.line, "access": step.access, "outcome": step.outcome, "set": step.set}
    data.update(way=step.way, next=step.next, why=why(cache, step), memory=to_memory(cache, step))
    data.update(address=cache.text(step.address), tag=cache.text(step.tag))
    data.update(offset=cache.text(step.offset))
    if step.way is not None:
        data["block"] = block_data(cache, step.held[step.way])
    if step.evicted:
        data["evicted"] = block_data(cache, step.evicted)
    return data


def block_data(cache, block):
    return {"tag": cache.text(block.tag), "since": block.line, "dirty": block.dirty}
