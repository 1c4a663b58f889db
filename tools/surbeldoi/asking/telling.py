"""Answers to questions about a run, as lines of text."""

MOST_TOLD = 8
WIDTH = 9


def limited(lines, what):
    """Lines, of many the first few and how many more there are."""
    lines = list(lines)
    more = len(lines) - MOST_TOLD
    return lines if more <= 1 else lines[:MOST_TOLD] + [f"and {more} {what} more"]


def named(what, numbers):
    """Things by their numbers."""
    return f"{what}{'' if len(numbers) == 1 else 's'} {', '.join(map(str, numbers))}"


def indented(lines, by="  "):
    return [by + line for line in lines]


def origin_text(origin):
    return f"line {origin['line']}: {origin['text']}"


def in_brackets(origin):
    return f" ({origin_text(origin)})" if origin else ""


def when_text(answer):
    """The vsync of an answer, and what was asked for where that is another one."""
    if answer["vsync"] is None:
        return "no vsync committed or rejected anything"
    asked, vsync = answer["asked"], answer["vsync"]
    return f"after vsync {vsync}" + (f" (vsync {asked} committed and rejected nothing)" if asked not in (None, vsync) else "")


# Pixels.


def layer_of(step):
    return f"layer {step['layer']}" + (f" in mirror {step['mirror']}" if step["mirror"] is not None else "")


def painted_text(step):
    what = f"picture {step['picture']} has {step['colour']} here" if step["picture"] is not None else step["colour"]
    if step["is_clear"]:
        return f"{what}: it changes nothing"
    alpha = "" if step["alpha"] == 255 else f" times alpha {step['alpha']} of 255 is {step['adds']}"
    return f"{what}{alpha}: " + ("it covers what is behind it" if step["is_covering"] else f"it is added to {step['lets']} of 255 of what is behind it")


def pixel_lines(answer):
    yield f"pixel {answer['x']} {answer['y']} of {answer['place']} {when_text(answer)}: {answer['ends']}"
    yield f"  {answer['begins']}  the display is opaque black"
    for step in answer["steps"]:
        yield f"  {step['after']}  {layer_of(step)}: {painted_text(step)}"
        if step["origin"]:
            yield f"            {origin_text(step['origin'])}"
        if step["order"]:
            yield f"            in front of the one before: {step['order']}"
    if answer["told"] is None:
        yield "  the records have no frame of it"
    else:
        yield "  the frame has this colour" if answer["told"] == answer["ends"] else f"  the frame has {answer['told']}, which is not what the layers make"
    yield from indented(limited((f"not here: layer {one['layer']}: {one['why']}" for one in answer["elsewhere"]), "layers"))


# Layers.


def shown_text(answer):
    why = answer["why"]
    return "shown" if why is None else f"not shown: {why['text']}{in_brackets(why['origin']) if 'line' not in why['text'] else ''}"


def value_text(value):
    """What is asked, what comes of it where that is something else, and why."""
    asked = "no crop" if value["asked"] == "none" else value["asked"]
    text = asked if value["computed"] in ("", value["asked"]) else f"{asked}, comes to {value['computed']}"
    why = value["why"] if value["name"] != "order" else ""
    return text + (f": {why}" if why else "") + in_brackets(value["origin"])


def row(name, text):
    return f"  {name:{WIDTH}} {text}"


def layer_lines(answer):
    yield f"layer {answer['layer']} on {answer['place']} {when_text(answer)}: {shown_text(answer)}"
    if answer["created"]:
        yield row("kind", f"{answer['kind']} ({origin_text(answer['created'])})")
    for name in ("frame", "colour"):
        if answer[name]:
            what = answer[name]["value"] if name == "colour" else "queue {queue} frame {frame}, picture {picture}".format(**answer["frame"])
            yield row(name, what + in_brackets(answer[name]["origin"]))
    for value in answer["values"]:
        if value["name"] != "shown" or value["why"] and not answer["why"]:
            yield row(value["name"], value_text(value))
    if answer["below"]:
        yield row("below it", named("layer", answer["below"]))
    if answer["copies"]:
        shows = "shows a copy of it" if len(answer["copies"]) == 1 else "show copies of it"
        yield row("copies", f"{named('mirror', answer['copies'])} {shows}")
    compared = (f"{'in front of' if one['is_in_front'] else 'behind'} layer {one['layer']}: {one['why']}" for one in answer["in_front_of"])
    yield from indented(limited(compared, "layers"))


# Transactions.


def doer_text(doer):
    return f"actor {doer['actor']} step {doer['step']} (line {doer['line']}: {doer['text']})"


def vsyncs_text(wait):
    return f"vsync {wait['first']} leaves" if wait["first"] == wait["last"] else f"vsyncs {wait['first']} to {wait['last']} leave"


def need_lines(need):
    yield need["text"]
    for doer in need["by"]:
        yield f"  {'ended by' if doer['is_done'] else 'only this would end it:'} {doer['sentence']}"
    if need["more"]:
        yield f"  {need['more']}"


def between(vsyncs):
    return "before vsync 1" if vsyncs == 0 else f"between vsyncs {vsyncs} and {vsyncs + 1}"


def taken_text(answer):
    if answer["taken"] is None:
        return f"no vsync takes it up to the end, vsync {answer['last']}"
    rejected = answer["rejected"]
    if not rejected:
        return f"vsync {answer['taken']} commits it"
    return f"vsync {answer['taken']} rejects it at operation {rejected['operation']}{in_brackets(rejected['by'])}: {rejected['cause']}"


def needed_lines(needs):
    """What a transaction of a live run needed."""
    yield "the records of a live run do not tell which vsyncs left it waiting; " + ("it needed" if needs else "it needed nothing but the next vsync")
    for need in needs:
        yield from indented(need_lines(need))


def arrival_lines(answer):
    by = answer["by"]
    when = f", {between(by['vsyncs'])}" if by["vsyncs"] is not None else ""
    yield f"arrival {answer['arrival']} of token {answer['token']}: {doer_text(by)}{when}"
    for wait in answer["waits"]:
        first, *more = need_lines(wait)
        yield f"  {vsyncs_text(wait)} it waiting: {first}"
        yield from indented(more)
    if answer["at_end"]:
        first, *more = need_lines(answer["at_end"])
        if not answer["waits"]:
            yield f"  it waits at the end: {first}"
            yield from indented(more)
    elif answer["is_live"]:
        yield from indented(needed_lines(answer["needs"]))
    elif not answer["waits"] and answer["asked"] is None:
        yield "  no vsync leaves it waiting"
    yield f"  {taken_text(answer)}"
    if answer["behind"]:
        yield f"  behind it under its token: {', '.join(f'arrival {number}' for number in answer['behind'])}"
    lines = ("line " if len(answer["lines"]) == 1 else "lines ") + lines_text(answer["lines"])
    yield f"  it changes {named('layer', answer['layers'])} ({lines})" if answer["layers"] else "  it changes nothing"


def lines_text(lines):
    """Lines as runs: 3 to 5, 8."""
    runs = []
    for line in lines:
        if runs and runs[-1][1] == line - 1:
            runs[-1][1] = line
        else:
            runs.append([line, line])
    return ", ".join(f"{first} to {last}" if last > first else str(first) for first, last in runs)


# Steps.


def outcome_text(answer):
    if answer["status"] is None:
        if answer["is_stuck"]:
            return "it waits to the end of the run"
        stuck = answer["stuck_at"]
        return f"it has no turn: step {stuck} of its actor waits to the end" if stuck is not None else "the records do not tell of it"
    when = f" {between(answer['vsyncs'])}" if answer["vsyncs"] is not None else ""
    if answer["refused"]:
        return f"refused{when}: {answer['refused']}"
    return f"done{when}" + (f": {answer['values']}" if answer["values"] else "")


def way_lines(way):
    if way["drawn"]:
        yield f"drawn by {doer_text(way['drawn'])}"
    if way["acquired"]:
        yield f"acquired by {doer_text(way['acquired'])}"
    if way["arrival"]:
        end = "no vsync took it" if way["vsync"] is None else f"vsync {way['vsync']} {'rejected' if way['is_rejected'] else 'committed'} it"
        yield f"shown on layer {way['layer']} by arrival {way['arrival']}: {end}"
    back = way["given_back"]
    if back:
        yield f"given back by vsync {back['step']}" if back["actor"] == 0 else f"given back by {doer_text(back)}"


def step_lines(answer):
    yield f"actor {answer['actor']} step {answer['step']} (line {answer['line']}: {answer['text']}): {outcome_text(answer)}"
    if answer["waited_from"] is not None:
        yield f"  its first turn is {between(answer['waited_from'])}, and it has to wait"
    if answer["need"]:
        yield from indented(need_lines(answer["need"]))
    if answer["way"]:
        yield from indented(way_lines(answer["way"]))


# Vsyncs.


def commit_text(commit):
    what = f"arrival {commit['arrival']} of token {commit['token']}" + (f", {doer_text(commit['by'])}" if commit["by"] else "")
    rejected = commit["rejected"]
    return f"committed: {what}" if not rejected else f"rejected: {what}: at operation {rejected['operation']}{in_brackets(rejected['by'])}, {rejected['cause']}"


def vsync_lines(answer):
    since = f"since vsync {answer['since']}" if answer["since"] else "since the beginning"
    if answer["since"] == answer["vsync"]:
        yield f"vsync {answer['asked']} commits and rejects nothing: all is as after vsync {answer['vsync']}"
    else:
        yield f"what is different {when_text(answer)}, {since}"
    yield from indented(map(commit_text, answer["commits"]))
    for change in answer["changes"]:
        name = "" if change["name"] == "layer" else f"{change['name']} "
        yield f"  layer {change['layer']}: {name}{change['before']} -> {change['after']}{in_brackets(change['origin'])}"
    for effect in answer["effects"]:
        name = "" if effect["name"] == "shown" else f"{effect['name']} "
        yield f"  so layer {effect['layer']}: {name}{effect['before']} -> {effect['after']}" + (f": {effect['why']}" if effect["why"] else "")
    for pixels in answer["pixels"] if answer["since"] != answer["vsync"] else ():
        where = " in {2} x {3} at {0} {1}".format(*pixels["area"]) if pixels["area"] else ""
        yield f"  {pixels['place']}: {pixels['different']} of {pixels['of']} pixels are others{where}"
    for hold in answer["held"]:
        yield f"  left waiting: arrival {hold['arrival']}: {hold['text']}"


LINES = {"pixel": pixel_lines, "layer": layer_lines, "arrival": arrival_lines, "step": step_lines, "vsync": vsync_lines}


def told(answer):
    """The lines of an answer."""
    return LINES[answer["ask"]](answer)
