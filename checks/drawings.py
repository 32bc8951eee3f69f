"""Whether a drawing, as its text, is one of these facts: what its lanes say, and what is seen of that."""
import re
import xml.etree.ElementTree

SVG = "{http://www.w3.org/2000/svg}"


def lanes_of(root, index):
    """The lanes of a move in a drawing: by their names the element, and what its bars say of each column."""
    found = {}
    for lane in root.iter(f"{SVG}g"):
        if lane.get("data-lane", "").split(" ")[0] == str(index):
            bars = [it for it in lane.iter(f"{SVG}g") if it.get("class") == "bar"]
            said = {column: it.get("data-says") for it in bars for column in range(int(it.get("data-from")), int(it.get("data-to")) + 1)}
            found[lane.get("data-lane").split(" ", 1)[1]] = lane, said
    return found


def wanted_lanes(facts, index):
    """What the lanes of a move have to say: of each place by its kind and its parts the words of each column."""
    wanted = {}
    for number, column in enumerate(facts["columns"]):
        state = column["moves"][index]
        for place, word in said_of(state).items() if state else ():
            wanted.setdefault(place, {})[number] = word
    return wanted


def said_of(state):
    """What a column says of each place, by its parts."""
    said = {}
    for table, types in state["by_name"].items():
        for of, shards in types.items():
            said.update({("name", table, of, shard): it.removesuffix(f".{table}") for shard, it in shards.items()})
    for side, tables in state["primaries"].items():
        for table, shards in tables.items():
            said.update({("primary", side, table, shard): it for shard, it in shards.items() if it != "refused F2 NoTable"})
    for it in state["streams"]:
        known = {key: "null" if value is None else str(value).lower() for key, value in it.items()}
        told = f"{it['state']} at {it['position']}, copied {known['copied']}, {known['behind']} behind, {known['rows']} rows"
        said["stream", it["direction"], it["shard"]] = told
    return said


def places_of(name):
    """The places that a lane shows: those of each table and each shard in its name."""
    kind, *parts = name.split(" ")
    tables = {"name": 0, "primary": 1}.get(kind)
    if tables is None:
        return [(kind, *parts)]
    places = [parts]
    for at in (tables, 2):
        places = [[*it[:at], part, *it[at + 1 :]] for it in places for part in it[at].split(",")]
    return [(kind, *it) for it in places]


def count_of(element, tag, kind):
    return sum(it.get("class") == kind for it in element.iter(f"{SVG}{tag}"))


def move_drawn(facts, root, index):
    """Where the drawing of a move says something else than its facts."""
    lanes, wanted, drawn, edges = lanes_of(root, index), wanted_lanes(facts, index), {}, edges_of(root)
    panel = next(it for it in root.iter(f"{SVG}g") if it.get("data-move") == str(index))
    group = next((it for it in panel.iter(f"{SVG}g") if it.get("class") == "steps"), None)
    yield from (f"steps: {it}" for it in steps_drawn(group, facts, index, edges))
    for name, (lane, said) in lanes.items():
        drawn.update({place: said for place in places_of(name)})
        yield from bars_drawn(facts["moves"][index], name, lane, edges)
        if name.startswith("stream") and count_of(lane, "rect", "behind") != behind_bars(lane):
            yield f"{name}: a lag that isn't drawn, or one that isn't there"
    for place in sorted({*wanted, *drawn} - {("phase",), ("back",)}, key=str):
        if wanted.get(place, {}) != drawn.get(place):
            yield f"{' '.join(place)}: is drawn as {drawn.get(place)}"
    states = {number: it["moves"][index] for number, it in enumerate(facts["columns"]) if it["moves"][index]}
    if set(lanes["phase"][1]) != set(range(len(facts["columns"]))) or set(lanes["back"][1]) != set(states):
        yield "a column without its phase or its way back"
    if any(not says_back(state, lanes["back"][1][number]) for number, state in states.items()):
        yield "the way back is drawn as another"
    queries = [it for state in states.values() for it in state["queries"]]
    for kind, tag, count in mark_counts(queries):
        if sum(count_of(lane, tag, kind) for lane, _ in lanes.values()) != count:
            yield f"{count} marks of kind {kind}"


FILLS = {"source": "#1f5fa8", "target": "#f2b04a", "other": "#6c7682", "refused": "url(#refused)"}


def edges_of(root):
    """Where the columns of a drawing begin, and where the last one ends."""
    rects = [it for it in root.iter(f"{SVG}rect") if it.get("class") == "column"]
    return [float(it.get("x")) for it in rects] + [float(rects[-1].get("x")) + float(rects[-1].get("width"))]


def bars_drawn(move, name, lane, edges):
    """Where the bars of a lane stand elsewhere than their columns, or show something else than they say."""
    for bar in [it for it in lane.iter(f"{SVG}g") if it.get("class") == "bar"]:
        rect, said = bar.find(f"{SVG}rect"), bar.get("data-says")
        left, right = edges[int(bar.get("data-from"))], edges[int(bar.get("data-to")) + 1]
        if abs(float(rect.get("x")) - left) > 1 or abs(float(rect.get("x")) + float(rect.get("width")) - right) > 2:
            yield f"{name}: the bar of {said} stands elsewhere"
        text = "".join(bar.itertext())
        if name.startswith(("name", "primary")) and rect.get("fill") != FILLS[served_by(move, name, said)]:
            yield f"{name}: {said} in the colour of another"
        if name.startswith("stream") and not shows_stream(text, said):
            yield f"{name}: {said} is shown as {text}"


def served_by(move, name, said):
    """Whose colour a bar has to have."""
    keyspace = name.split()[1] if said == "open" else said.split(".")[0]
    return "refused" if said.startswith("refused") else {move["source"]: "source", move["target"]: "target"}.get(keyspace, "other")


def shows_stream(text, said):
    """Whether the words in a stream's bar, which may be cut short, are those of the stream."""
    position, behind = re.match(r"\w+ at (\d+), copied \w+, (\w+) behind", said).groups()
    shown = re.search(r"(?:^| at |^at )(\d+)(?:,|$)", text)
    lag = re.search(r"(\d+) behind|−(\d+)", text)
    if lag or (text and behind not in ("0", "null")):
        return bool(lag) and (lag[1] or lag[2]) == behind and (not shown or shown[1] == position)
    return not shown or shown[1] == position


def level_of(steps, done):
    """How high a way stands with so many steps done; of a step that is done for each shard each one counts a part."""
    alike = [it for it in steps if it == steps[done - 1]]
    return steps[done - 1] + (done - steps.index(steps[done - 1])) / len(alike) if done else steps[0]


def steps_drawn(group, facts, index, edges):
    """Where the steps that stand done are drawn at another height, or whole switches aren't told."""
    states = [column["moves"][index] for column in facts["columns"]]
    drives = [state["drive"] for state in states if state and state["drive"] and not state["way"]]
    ways = [(number, state["way"]) for number, state in enumerate(states) if state and state["way"]]
    if group is None:
        return ["there are none"] if drives or ways else []
    journal = next(float(it.get("y1")) for it in group.iter(f"{SVG}line") if it.get("stroke-dasharray") == "6 4")
    ends = {tuple(map(float, it.get("points").split()[-1].split(","))) for it in group.iter(f"{SVG}polyline")}
    wanted = [(number, edges[number + 1], journal + 15 * (6 - level_of(way["steps"], way["done"]))) for number, way in ways]
    found = [f"column {number}" for number, x, y in wanted if not any(abs(x - at) < 0.3 and abs(y - high) < 0.3 for at, high in ends)]
    texts = [it.text or "" for it in group.iter(f"{SVG}text")]
    whole = sum(it.endswith("in one line") or it in ("1 step", "1 back") for it in texts)
    undone = sum(it.endswith("undone by itself") for it in texts)
    given_up = sum(it["undone"] for it in drives)
    return found + ["whole switches"] * (whole != len(drives) - given_up) + ["switches that gave themselves up"] * (undone != given_up)


def behind_bars(lane):
    return sum(it.get("class") == "bar" and ", 0 behind" not in it.get("data-says") and "null behind" not in it.get("data-says") for it in lane.iter(f"{SVG}g"))


def mark_counts(queries):
    yield "refused", "g", sum(it["refused"] for it in queries)
    yield "write", "circle", sum(it["write"] and not it["refused"] for it in queries)
    yield "read", "circle", sum(not it["write"] and not it["refused"] for it in queries)


def says_back(state, said):
    """Whether the words on the way back begin with the line that was tried, where that leads back."""
    back = state["way_back"]
    if back is None:
        return said == "the move has ended"
    verb = back["lines"][0].split()[0]
    return said.startswith(f"{verb}: as before ") if back["as_before"] else said.startswith(("none", f"{verb} is answered"))


def drawing_differs(facts, svg):
    """Where a drawing, as its text, isn't one of these facts."""
    try:
        root = xml.etree.ElementTree.fromstring(svg)
    except xml.etree.ElementTree.ParseError as error:
        return [f"no XML: {error}"]
    found = [f"{move['workflow']}: {it}" for index, move in enumerate(facts["moves"]) for it in move_drawn(facts, root, index)]
    foot = next(it for it in root.iter(f"{SVG}g") if it.get("class") == "foot")
    refused = sum(any(refusal_in(it["answer"]) for it in facts["lines"][column["first"] - 1 : column["last"]]) for column in facts["columns"])
    if count_of(foot, "g", "refused") != refused:
        found.append(f"{refused} columns have refused lines")
    return found + [f"there is no {tag}" for tag in ("title", "desc") if not (root.findtext(f"{SVG}{tag}") or "").strip()]


def refusal_in(answer):
    return answer.startswith(("refused ", "abandoned ", "stopped "))
