"""Edits of tools/recheck that bend how it reads texts and judges plans, each of which some vector of rules/ notices.

BENT has for each edit what the bent checker does wrong, with pairs of a text of tools/recheck, which stands there
once, and of what takes its place.
"""

# Any text is read here, and any line.
FILE = "        self.file = file\n"
LINE = '        return line[:-1].decode("latin-1")\n'
LINE_FEED = '        self.refuse_if(not line.endswith(b"\\n"), 2)\n'


def of_text(change):
    """The edit after which a text is changed before it is read. `name` tells whether it is a plan text."""
    return FILE, f"        self.file = io.BytesIO((lambda text: {change})(file.read()))\n"


def of_line(change):
    """The edit after which each line is changed before it is judged."""
    return LINE, f'        return (lambda line: {change})(line[:-1].decode("latin-1"))\n'


IS_PLAN_TEXT = 'name == "C1 P"'
TITLES = '[f"{word} {version}" for version in range(1, versions + 1)]'

LINES = {
    "takes the last line without its LF": [
        (LINE_FEED + LINE, '        return line.removesuffix(b"\\n").decode("latin-1")\n')],
    "ignores what follows end": [("        self.refuse_if(self.file.read(1), 4)\n", "")],
    "takes a plan text without end": [("    lines.take([END], ranges)\n    lines.end()\n", "")],
    "takes a certificate without end": [("        self.take([END])\n        self.lines.end()\n", "")],
    "takes more words after end": [('"at x,y U L", "end"', '"at x,y U L", "end.*"')],
    "ignores more words in a line": [
        ("if pattern_of(shape).fullmatch(line)), None)", "if pattern_of(shape).match(line)), None)"),
        ("words = pattern_of(shape).fullmatch(line)", "words = pattern_of(shape).match(line)")],
    "ignores spaces after a line": [of_line('line.rstrip(" ")')],
    "ignores spaces before a line": [of_line('line.lstrip(" ")')],
    "takes several spaces for one": [of_line('re.sub(" +", " ", line)')],
    "takes a tab for a space": [of_line(r'line.replace("\t", " ")')],
    "takes a form feed for a space": [of_line(r'line.replace("\x0c", " ")')],
    "ignores a CR before LF": [of_line(r'line.removesuffix("\r")')],
    "takes a CR for a line end": [of_text(r'text.replace(b"\r", b"\n")')],
    "takes a vertical tab for a line end": [of_text(r'text.replace(b"\x0b", b"\n")')],
    "ignores a byte of 0 after a line": [of_line(r'line.removesuffix("\0")')],
    "ignores a byte of 0 after the text": [of_text(r'text.removesuffix(b"\0")')],
    "ignores blank lines": [of_text(r're.sub(rb"\n\n+", rb"\n", text).removeprefix(b"\n")')],
    "ignores comments": [of_text(r're.sub(rb"\n#.*", b"", text)')],
    "ignores a byte order mark": [of_text(r'text.removeprefix(b"\xef\xbb\xbf")')],
    "takes capitals for small letters": [of_line("line.lower()")],
    "takes any title": [(TITLES, '[".* 1", ".* 2"]')],
    "takes any version for the second": [(TITLES, '[f"{word} 1", f"{word}.*"]')],
    "needs no title": [of_text(
        rf'text if text[:4] == b"mapf" else (b"mapf-plan 2\n" if {IS_PLAN_TEXT} else b"mapf-cert 2\n") + text')],
    "needs no number of agents": [of_text(
        r'text if b"\nagents" in text else text.replace(b"\n", b"\nagents 2\n", 1)')],
    "takes a number of agents that stands later": [of_text(
        r're.sub(rb"\A(.*\n)(.*\n)(agents .*\n)", rb"\1\3\2", text)')],
    "needs no answer": [of_text(
        rf'text.replace(b"\npath", b"\ncost 3\npath", 1) if {IS_PLAN_TEXT} and b"\ncost" not in text else text')],
    "needs no claim": [of_text(
        rf'text if {IS_PLAN_TEXT} or b"\nclaim" in text else text.replace(b"ts 2\n", b"ts 2\nclaim cost 5\n")')],
    "takes a line that stands twice for one": [of_text(r're.sub(rb"(?m)^(.*\n)\1", rb"\1", text)')],
    "takes lines of at most 4,096 bytes": [('"C1 P", MOST_TEXT_BYTES)', '"C1 P", 4096)')],
}

NUMBER = 'NUMBER = "(0|[1-9][0-9]*)"'
LABEL = '"(inf|[1-9][0-9]*|0)"'
VALUE = "return int(digits) if len(digits) <= 20 else 10 ** 20"
ALL_DIGITS = 're.findall("[0-9]+", line)'
RANGE = "            self.refuse_if(number != INFINITE and not least <= number <= most, 3)\n"
COLUMNS, ROWS = '"x": (0, width - 1)', '"y": (0, height - 1)'
GRID = "    return width, height, free\n"
MARGIN = "{(x, height) for x in range(width)} | {(width, y) for y in range(height)}"
CELLS_OF_PATH = "    path = list(zip(pairs[0::2], pairs[1::2]))\n"
CELLS_OF_SPLIT = "    cells = list(zip(pairs[0::2], pairs[1::2]))\n"

NUMBERS = {
    "takes leading zeros": [(NUMBER, 'NUMBER = "([0-9]+)"'), (LABEL, '"(inf|[0-9]+)"')],
    "takes leading zeros in the version": [(TITLES, '[f"{word} 0*1", f"{word} 0*2"]')],
    "takes a plus sign": [(NUMBER, r'NUMBER = r"(\+?0|\+?[1-9][0-9]*)"'), (LABEL, r'r"(\+?inf|\+?[1-9][0-9]*|0)"'),
                          ('if word == "inf" else', 'if word.endswith("inf") else')],
    "takes a minus sign before 0": [(NUMBER, 'NUMBER = "(-?0|[1-9][0-9]*)"'),
                                    (ALL_DIGITS, 're.findall("-?[0-9]+", line)')],
    "takes a fraction of 0": [(NUMBER, r'NUMBER = r"(0|[1-9][0-9]*)(?:\.0)?"'),
                              (LABEL, r'r"(inf|[1-9][0-9]*|0)(?:\.0)?"')],
    "takes a power of ten": [(NUMBER, 'NUMBER = "(0|[1-9][0-9]*)(?:e0)?"')],
    "takes digits of any script": [(NUMBER, r'NUMBER = r"(0|(?!0)\d+)"'),
                                   (LINE, '        return line[:-1].decode("utf-8")\n')],
    "takes underscores between digits": [(NUMBER, 'NUMBER = "(0|[1-9][0-9_]*)"')],
    "takes numbers modulo 2^64": [(VALUE, "return int(digits) % 2 ** 64")],
    "takes numbers modulo 2^32": [(VALUE, "return int(digits) % 2 ** 32")],
    "takes a pair with a blank": [of_line('line.replace(", ", ",")')],
    "takes a pair in parentheses": [of_line('re.sub("[()]", "", line)')],
    "takes a pair with a semicolon": [of_line('line.replace(";", ",")')],
    "takes a pair of three numbers": [of_line(r're.sub("(,[0-9]+),[0-9]+", r"\1", line)')],
    "takes commas between pairs": [of_line('line.replace(", ", " ")')],
    "judges no ranges": [(RANGE, "")],
    "takes more splits": [("ranges_of(grid, agents, 100_000)", "ranges_of(grid, agents, 1_000_000)")],
    "takes fewer splits": [("ranges_of(grid, agents, 100_000)", "ranges_of(grid, agents, 99_999)")],
    "takes greater bounds": [('"B": (0, 1_999_999_800)', '"B": (0, 2_000_000_000)')],
    "takes no bound of 0": [('"B": (0, 1_999_999_800)', '"B": (1, 1_999_999_800)')],
    "takes bounds up to the greatest label": [('"B": (0, 1_999_999_800)', '"B": (0, 9_999_999)')],
    "takes at most 100 agents": [('"K": (1, 200)', '"K": (1, 100)')],
    "takes at least two agents": [('"K": (1, 200)', '"K": (2, 200)')],
    "takes fewer than 2,048 columns": [(COLUMNS, '"x": (0, min(width - 1, 2046))')],
    "takes fewer than 2,048 rows": [(ROWS, '"y": (0, min(height - 1, 2046))')],
    "takes the cells right of and below the grid for free": [
        (GRID, f"    return width, height, free | {MARGIN}\n"), (COLUMNS, '"x": (0, width)'),
        (ROWS, '"y": (0, height)')],
    "takes a cell beyond a row for one of the next row": [
        (COLUMNS, '"x": (0, 3 * width)'),
        (CELLS_OF_PATH, '    width = (ranges["x"][1]) // 3\n'
                        "    path = [(x % width, y + x // width) for x, y in zip(pairs[0::2], pairs[1::2])]\n"),
        (CELLS_OF_SPLIT, "    width = max(x for x, _ in free) + 1\n"
                         "    cells = [(x % width, y + x // width) for x, y in zip(pairs[0::2], pairs[1::2])]\n")],
}

ANSWERS_1 = '1: ["cost C", "impossible", "limit N", "limit ticks"]'
ANSWERS_2 = '2: ["cost C", "impossible", "limit N bound B", "limit ticks bound B"]'
LIMIT_OF_VERSION_1 = '("limit" if version == 1 else "bound",'
NO_LIMIT_OF_VERSION_1 = LIMIT_OF_VERSION_1, '("bound",'
FIT = '(claim.split(" ")[1], numbers[0] if numbers else None) != answer'
KIND, TOLD = 'claim.split(" ")[1] != answer[0]', "[] if answer[1] is None else [answer[1]]"
PLAN_TITLE = '    version = lines.title("mapf-plan", 2)\n'
CERT_TITLE = '    version = lines.title("mapf-cert", 3)\n'


def with_answer(version, answer):
    """The edit after which one more form of an answer is taken in a version."""
    answers = {1: ANSWERS_1, 2: ANSWERS_2}[version]
    return answers, f'{answers[:-1]}, "{answer}"]'


ANSWERS = {
    "takes a limit of version 2 without a bound": [with_answer(2, "limit N")],
    "takes a limit at ticks of version 2 without a bound": [with_answer(2, "limit ticks"), (FIT, "False")],
    "takes a limit of version 1 with a bound": [with_answer(1, "limit N bound B"), NO_LIMIT_OF_VERSION_1],
    "takes a limit at ticks of version 1 with a bound": [
        with_answer(1, "limit ticks bound B"), NO_LIMIT_OF_VERSION_1],
    "takes a limit without splits": [with_answer(2, "limit bound B")],
    "takes a limit with its bound first": [of_line(r're.sub("(bound .*) (limit .*)", r"\2 \1", line)')],
    "refuses limits at ticks": [(ANSWERS_2, ANSWERS_2.replace(', "limit ticks bound B"', ""))],
    "takes the splits of a limit of version 1 for a bound": [NO_LIMIT_OF_VERSION_1],
    "takes a limit of version 1 beside any claim": [
        ('    refuse_if(kind == "limit", "C4")\n', ""), (FIT, 'answer[0] != "limit" and ' + FIT)],
    "takes a claim of another kind": [(FIT, f"numbers != ({TOLD})")],
    "takes a claim of another number": [(FIT, KIND)],
    "takes a claim that is less": [(FIT, f"{KIND} or numbers > ({TOLD})")],
    "takes a claim that is more": [(FIT, f"{KIND} or numbers < ({TOLD})")],
    "takes any claim beside a limit": [(FIT, f'answer[0] != "bound" and {FIT}')],
    "takes any claim beside impossible": [(FIT, f'answer[0] != "impossible" and {FIT}')],
    "takes any number of agents of a plan text": [
        ('    refuse_if(told_agents != agents, "C3")\n', ""),
        ("judge_plan(paths, grid", "judge_plan(paths[:agents], grid")],
    "takes any number of agents of a certificate": [('    refuse_if(agents != len(goals), "C3")\n', "")],
    "takes all rows of a scenario for agents": [("rows[1:agents + 1]]", "rows[1:]]")],
    "refuses plan texts of version 1": [(PLAN_TITLE, PLAN_TITLE + '    refuse_if(version == 1, "C1 P1 1")\n')],
    "refuses certificates of version 1": [(CERT_TITLE, CERT_TITLE + '    refuse_if(version == 1, "C2 K1 1")\n')],
}

NUMBER_OF_PATH = "number != agent or "
PAIRS_OF_PATH = "len(path) != cost + 1 or "
GIVE_PATH = "    return path\n"
PATHS = "[take_path(lines, agent, ranges) for agent in range(agents)]"
SUM = "sum(len(path) - 1 for path in paths) != numbers[0]"
IS_PATH_NEXT = 'lines.file.getvalue()[lines.file.tell():].startswith(b"path")'

PATHS_OF_PLANS = {
    "ignores the numbers of paths": [(NUMBER_OF_PATH, "")],
    "sorts the paths": [(NUMBER_OF_PATH, ""), (GIVE_PATH, "    return number, path\n"),
                        (PATHS, f"[path for _, path in sorted({PATHS})]")],
    "takes paths counted from 1": [(NUMBER_OF_PATH, "number not in (agent, agent + 1) or "),
                                   ('"I": (0, agents - 1)', '"I": (0, agents)')],
    "takes fewer paths than agents": [(PATHS, f"{PATHS[:-1]} if {IS_PATH_NEXT}]")],
    "takes more paths than agents": [
        (PATHS, PATHS[:-1].replace("range(agents)", "range(9)") + f" if agent < agents or {IS_PATH_NEXT}][:agents]"),
        ('"I": (0, agents - 1)', '"I": (0, agents)')],
    "takes the number of pairs for the cost": [(PAIRS_OF_PATH, "")],
    "takes the cost of a path as it is told": [
        (PAIRS_OF_PATH, ""), (GIVE_PATH, '    lines.total = getattr(lines, "total", 0) + cost\n' + GIVE_PATH),
        (SUM, "lines.total != numbers[0]")],
    "strips waits at the end of a path": [
        (PAIRS_OF_PATH, ""),
        (CELLS_OF_PATH, CELLS_OF_PATH + "    while len(path) > 1 and path[-1] == path[-2]:\n        path.pop()\n")],
    "doesn't add up the costs": [(SUM, "False")],
    "counts the cost up to the first arrival": [(SUM, "sum(path.index(path[-1]) for path in paths) != numbers[0]")],
}

V1 = '        refuse_if(path[0] != starts[agent], f"C5 V1 {agent}")\n'
V2 = '            refuse_if(there not in steps_from(here, free), f"C5 V2 {agent} {tick}")\n'
V3 = '        refuse_if(path[-1] != goals[agent], f"C5 V3 {agent}")\n'
V4 = "here[one] == here[other], f"
V5 = "here[one] == there[other] and here[other] == there[one]"
PAIRS = "for one in range(len(paths)) for other in range(one + 1, len(paths))]"
STEPS = "((x, y), (x, y - 1), (x - 1, y), (x + 1, y), (x, y + 1))"
DIAGONALS = ", (x - 1, y - 1), (x + 1, y - 1), (x - 1, y + 1), (x + 1, y + 1))"
WIDTH = "(max(x for x, _ in free) + 1)"
SHORTER, LONGER = "min(len(paths[one]), len(paths[other]))", "max(len(paths[one]), len(paths[other]))"


def of_step(condition):
    """The edit after which a step of a plan is judged by its differences, and still may not enter a blocked cell."""
    return V2, ("            right, down = there[0] - here[0], there[1] - here[1]\n"
                f'            refuse_if(not ({condition}) or there not in free, "C5 V2")\n')


def of_meeting(condition):
    """The edits after which agents in one cell count only on a condition, and don't as an exchange of cells."""
    return [(V4, f"{condition} and {V4}"), (V5, f"here[one] != here[other] and {V5}")]


def of_exchange(condition):
    return [(V5, f"{condition} and {V5}")]


PLANS = {
    "lets a path begin anywhere": [(V1, "")],
    "looks at the start of agent 0 alone": [(V1, V1.replace("path[0]", "agent == 0 and path[0]"))],
    "lets a path end anywhere": [(V3, "")],
    "looks at the goal of agent 0 alone": [(V3, V3.replace("path[-1]", "agent == 0 and path[-1]"))],
    "judges no step": [(V2, "            pass\n")],
    "judges the steps of agent 0 alone": [(V2, V2.replace("there not in", "agent == 0 and there not in"))],
    "doesn't judge the last step": [(V2, V2.replace("there not in", "tick + 2 < len(path) and there not in"))],
    "judges the first step alone": [(V2, V2.replace("there not in", "tick == 0 and there not in"))],
    "allows diagonal steps": [of_step("max(abs(right), abs(down)) <= 1")],
    "allows steps of two cells": [of_step("abs(right) + abs(down) <= 2")],
    "subtracts the differences of a step": [of_step("abs(right - down) <= 1")],
    "adds up the differences of a step": [of_step("abs(right + down) <= 1")],
    "compares the numbers of cells": [of_step(f"abs(right + down * {WIDTH}) in (0, 1, {WIDTH})")],
    "allows to enter blocked cells": [(V2, V2.replace("steps_from(here, free)", "steps_from(here, free | {there})"))],
    "allows no wait": [(V2, V2.replace("there not in", "there == here or there not in"))],
    "has no steps up": [(STEPS, STEPS.replace(", (x, y - 1)", ""))],
    "has no steps left": [(STEPS, STEPS.replace(", (x - 1, y)", ""))],
    "has no steps right": [(STEPS, STEPS.replace(", (x + 1, y)", ""))],
    "has no steps down": [(STEPS, STEPS.replace(", (x, y + 1)", ""))],
    "has diagonal steps": [(STEPS, STEPS[:-1] + DIAGONALS)],
    "has steps round the end of a row": [(STEPS, f"{STEPS[:-1]}, (0, y + 1) if x + 1 == {WIDTH} else (x, y))")],
    "lets agents meet": of_meeting("False"),
    "lets agents meet at tick 0": of_meeting("tick > 0"),
    "looks at meetings up to the end of the shorter path": of_meeting(f"tick < {SHORTER}"),
    "looks at meetings before the end of the shorter path": of_meeting(f"tick + 1 < {SHORTER}"),
    "looks at meetings before the end of the longer path": of_meeting(f"tick + 1 < {LONGER}"),
    "looks at meetings at the end of a path alone": of_meeting(f"tick + 1 >= {SHORTER}"),
    "lets agents meet one that never moves": of_meeting(f"{SHORTER} > 1"),
    "lets agents meet one of a greater number that never moves": of_meeting("len(paths[other]) > 1"),
    "lets agents meet one of a smaller number that never moves": of_meeting("len(paths[one]) > 1"),
    "lets agents meet one that is about to leave": of_meeting("here[one] == there[one]"),
    "lets agents exchange their cells": of_exchange("False"),
    "lets agents exchange their cells later": of_exchange("tick == 0"),
    "lets agents exchange their cells at tick 0": of_exchange("tick > 0"),
    "lets agents exchange their cells in a column": of_exchange("here[one][1] == here[other][1]"),
    "lets agents exchange their cells in a row": of_exchange("here[one][0] == here[other][0]"),
    "lets agents exchange their cells at the end of a path": of_exchange(f"tick + 2 < {SHORTER}"),
    "lets agents exchange their cells by their last steps": of_exchange(f"tick + 2 < {LONGER}"),
    "looks at agents 0 and 1 alone": [(PAIRS, PAIRS[:-1] + " if other == 1]")],
    "looks at agent 0 and others alone": [(PAIRS, PAIRS[:-1] + " if one == 0]")],
    "looks at neighbours among the agents alone": [(PAIRS, PAIRS[:-1] + " if other == one + 1]")],
    "refuses following conflicts": [(V5, V5.replace(" and ", " or "))],
    "refuses agents that move in a cycle": [(V5, f"{V5} or here != there and sorted(here) == sorted(there)")],
}

BENT = {**LINES, **NUMBERS, **ANSWERS, **PATHS_OF_PLANS, **PLANS}
