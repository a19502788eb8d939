"""What is wrong with a picture of a history: its elements, and its rows and bars by the text of the same history."""
import re
import xml.etree.ElementTree as ElementTree

SVG = "{http://www.w3.org/2000/svg}"
# A glyph has at most this width, and a line of text reaches so far above and below where its glyphs stand.
GLYPH, ABOVE, BELOW, MARK, HEADING_ROWS = 7, 11, 3, 9, 40
FLAGS = ["NewDat", "MsgLst", "IntPnd", "TxRqst"]
BOXES = ["if1", "if2", "bus", "own"]


def steps_told(history):
    """The steps of a history as it is printed: number, thread, and the lines, one after the other."""
    steps = []
    for line in history.splitlines():
        found = re.match(r" *(\d+)  (\S.*?)  +(\S.*)$", line)
        if found and steps and steps[-1][:2] == [found[1], found[2]]:
            steps[-1][2].append(found[3])
        elif found:
            steps.append([found[1], found[2], [found[3]]])
        elif steps:
            steps[-1][2].append(line)  # what the program prints may have several lines
    return steps


def bars_told(steps):
    """The bars by the marks in the lines: object, flag, the row that set it and the row that cleared it or the number of rows."""
    bars, begun = [], {}
    for row, (_, _, lines) in enumerate(steps):
        for line in lines:
            found = re.search(r"object (\d+)\b.* \| (.*)$", line)
            for mark, flag in re.findall(r"([+-])(\w+)", found[2]) if found else []:
                if mark == "+":
                    begun[int(found[1]), flag] = row
                else:
                    bars.append((int(found[1]), flag, begun.pop((int(found[1]), flag), 0), row))
    bars += [(*key, row, len(steps)) for key, row in begun.items()]
    return sorted(bar for bar in bars if bar[2] != bar[3])  # what is set and cleared in one step is no bar


def area(rect):
    return [int(rect.get(name)) for name in ("x", "y", "width", "height")]


def text_places(picture):
    for text in picture.iter(SVG + "text"):
        x, y, words = int(text.get("x")), int(text.get("y")), text.text or ""
        yield x, y - ABOVE, x + GLYPH * len(words), y + BELOW, words


def text_faults(picture, width, height):
    """Texts that reach out of the picture, and two in one place."""
    places = sorted(text_places(picture), key=lambda place: place[1])
    for number, one in enumerate(places):
        if one[2] > width or one[3] > height:
            yield f"a text reaches out of the picture: {one[4]}"
        for other in places[number + 1:]:
            if other[1] >= one[3]:
                break
            if one[0] < other[2] and other[0] < one[2]:
                yield f"texts in one place: {one[4]!r} and {other[4]!r}"


def lane_faults(step, told, lanes):
    """Whether a row has its number, and one box, in the lane of its thread, with its labels and fields in it."""
    boxes = [area(it) for it in step.iter(SVG + "rect") if it.get("class") in BOXES]
    number = [it.text for it in step.iter(SVG + "text") if it.get("class") == "number"]
    if len(boxes) != 1 or number != [told[0]]:
        yield f"{len(boxes)} boxes and the numbers {number} in the row of step {told[0]}"
        return
    left, top, wide, high = boxes[0]
    if lanes.get(told[1]) != left:
        yield f"the box of {told[1]} stands at {left}, and its lane at {lanes.get(told[1])}"
    for it in step.iter(SVG + "text"):
        x, y = int(it.get("x")), int(it.get("y"))
        inside = left <= x and x + GLYPH * len(it.text or "") <= left + wide and y - ABOVE >= top and y + BELOW <= top + high
        if it.get("class") in ("label", "frame") and not inside:
            yield f"a label reaches out of its lane: {it.text}"


def words_faults(step, told):
    """The words of a row are the lines of its step."""
    words = "".join(it.text or "" for it in step.iter(SVG + "text") if it.get("class") == "words").replace(" ", "")
    if words != re.sub(rb"[^ -~]", b"?", "".join(told[2]).encode()).decode().replace(" ", ""):
        yield f"step {told[0]} has the words {words}"


def bars_drawn(picture, tops, bottom):
    """The bars in the form of bars_told; None stands for a place where none belongs."""
    columns = {}
    heads = [it for it in picture.iter(SVG + "text") if it.get("class") == "heading"]
    for x, words in sorted((int(it.get("x")), it.text) for it in heads):
        if words.startswith("obj. "):
            columns.update({x + 13 * place: (int(words[5:]), flag) for place, flag in enumerate(FLAGS)})
    rows = {top + MARK: row for row, top in enumerate(tops)}
    bars = []
    for it in picture.iter(SVG + "rect"):
        x, y, _, height = area(it)
        if it.get("class") in FLAGS and y > tops[0]:
            end = rows.get(y + height, len(tops) if y + height == bottom else None)
            bars.append((*columns.get(x, (None, it.get("class"))), rows.get(y), end))
    return sorted(bars)


def faults(svg, history):
    """What is wrong with the picture of a history that is printed so."""
    steps = steps_told(history)
    try:
        picture = ElementTree.fromstring(svg)
    except ElementTree.ParseError as error:
        return [f"no XML: {error}"]
    width, height = int(picture.get("width")), int(picture.get("height"))
    found = list(text_faults(picture, width, height))
    for it in picture.iter(SVG + "rect"):
        x, y, wide, high = area(it)
        if x + wide > width or y + high > height or wide <= 0 or high <= 0:
            found.append(f"a {it.get('class')} at {x} {y} of {wide} {high} is empty, or reaches out of the picture")
    rows = [it for it in picture.iter(SVG + "g") if it.get("class") == "step"]
    if len(rows) != len(steps):
        return [*found, f"{len(rows)} rows in place of {len(steps)}"]
    heads = [(it.text, int(it.get("x"))) for it in picture.iter(SVG + "text") if it.get("class") == "heading"]
    if sum(words == "step" for words, _ in heads) != 1 + (len(rows) - 1) // HEADING_ROWS:
        found.append("headings are missing")
    for step, told in zip(rows, steps):
        found += [*lane_faults(step, told, dict(heads)), *words_faults(step, told)]
    tops = [area(it)[1] for step in rows for it in step.iter(SVG + "rect") if it.get("class") in BOXES]
    bottom = [area(it)[1] for it in picture.iter(SVG + "rect") if it.get("class") == "band"][-1]
    if bars_drawn(picture, tops, bottom) != bars_told(steps):
        found.append(f"bars {bars_drawn(picture, tops, bottom)} in place of {bars_told(steps)}")
    if "prefers-color-scheme:dark" not in svg:
        found.append("no colours for the dark")
    return found
