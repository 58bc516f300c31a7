"""Tries the pictures and films of tools/draw: their files are read here once more, by what the standards of PNG and GIF
say, and of each agent the colour is looked for where it is at a tick.
"""

import random
import struct
import subprocess
import sys
import tempfile
import zlib
from pathlib import Path

from draw_tests import BAD, DRAW, FAULTY, MAP, SCEN, VALID, drawn, large_problem

from mapf.tools.colours import colours
from mapf.tools.image_files import Image, gif, png
from mapf.tools.texts import plan_text


def tests(tally):
    with tempfile.TemporaryDirectory() as name:
        folder = Path(name)
        tally.add("draw, images drawn by lot", random_faults())
        for title, paths in (("a valid plan", VALID), ("a plan with an odd step", BAD),
                             ("a plan that leaves the map", FAULTY)):
            tally.add(f"draw, pictures of {title}", picture_faults(folder, paths))
            tally.add(f"draw, a film of {title}", film_faults(folder, paths))
        tally.add("draw, a picture of a large map", large_faults(folder))
        tally.add("draw, words of pictures", word_faults(folder))


# The standards.

def read_png(data):
    """The rows of an image with a palette, of which each pixel is its colour."""
    assert data[:8] == b"\x89PNG\r\n\x1a\n"
    at, parts = 8, []
    while at < len(data):
        (length,), name = struct.unpack_from(">I", data, at), data[at + 4:at + 8]
        body = data[at + 8:at + 8 + length]
        assert struct.unpack_from(">I", data, at + 8 + length)[0] == zlib.crc32(name + body)
        parts.append((name, body))
        at += 12 + length
    assert [name for name, _ in parts] == [b"IHDR", b"PLTE", b"IDAT", b"IEND"]
    width, height, *kind = struct.unpack(">IIBBBBB", parts[0][1])
    assert kind == [8, 3, 0, 0, 0]
    plain = zlib.decompress(parts[2][1])
    assert len(plain) == height * (width + 1) and not any(plain[::width + 1])
    palette = [tuple(parts[1][1][at:at + 3]) for at in range(0, len(parts[1][1]), 3)]
    return [[palette[pixel] for pixel in plain[y * (width + 1) + 1:(y + 1) * (width + 1)]] for y in range(height)]


def read_gif(data):
    """The frames of a film, each with its delay and the rows of its pixels, which are colours."""
    assert data[:6] == b"GIF89a" and data[-1:] == b";"
    width, height, flags = struct.unpack_from("<HHB", data, 6)
    count = 2 << (flags & 7)
    palette = [tuple(data[13 + 3 * number:16 + 3 * number]) for number in range(count)]
    at, frames, rows = 13 + 3 * count, [], [[None] * width for _ in range(height)]
    while data[at] != 0x3B:
        if data[at:at + 2] == b"\x21\xff":
            at = blocks_at(data, at + 2)[1]
            continue
        assert data[at:at + 3] == b"\x21\xf9\x04" and data[at + 3] == 5
        delay, transparent = struct.unpack_from("<HB", data, at + 4)
        mark, left, top, across, down, flags, bits = struct.unpack_from("<BHHHHBB", data, at + 8)
        assert (mark, flags) == (0x2C, 0)
        packed, at = blocks_at(data, at + 19)
        pixels = unpacked(packed, bits)
        assert len(pixels) == across * down
        for place, pixel in enumerate(pixels):
            if pixel != transparent or not frames:
                rows[top + place // across][left + place % across] = palette[pixel]
        frames.append((delay, [row[:] for row in rows]))
    return frames


def blocks_at(data, at):
    """What the blocks of data hold that begin here, and where they end."""
    held = b""
    while data[at]:
        held += data[at + 1:at + 1 + data[at]]
        at += 1 + data[at]
    return held, at + 1


def unpacked(packed, bits):
    """The pixels of which these are the codes."""
    clear, size, at, before = 1 << bits, bits + 1, 0, None
    table, pixels = [], bytearray()
    while True:
        code = int.from_bytes(packed[at // 8:at // 8 + 3], "little") >> at % 8 & (1 << size) - 1
        at += size
        if code == clear:
            table, size, before = [bytes([pixel]) for pixel in range(clear)] + [None, None], bits + 1, None
        elif code == clear + 1:
            assert (at + 7) // 8 == len(packed)
            return bytes(pixels)
        else:
            word = table[code] if code < len(table) else before + before[:1]
            if before is not None and len(table) < 4096:
                table.append(before + word[:1])
            if len(table) == 1 << size and size < 12:
                size += 1
            before = word
            pixels += word


# Images.

def random_faults():
    """Images of pixels drawn by lot, and of few and of many colours, are read as they were."""
    draw = random.Random(5)
    faults = []
    for count, width, height in ((2, 1, 1), (2, 9, 7), (5, 60, 50), (16, 100, 90), (207, 130, 120), (256, 90, 80)):
        palette = [tuple(draw.randrange(256) for _ in range(3)) for _ in range(count)]
        most = count - 2  # the last colour stands for what stays
        images = [Image(width, height, bytearray(draw.randint(0, most) for _ in range(width * height)))]
        for _ in range(3):
            pixels = images[-1].pixels[:]
            for _ in range(draw.choice((0, 1, 40))):
                pixels[draw.randrange(len(pixels))] = draw.randint(0, most)
            images.append(Image(width, height, pixels))
        wanted = [[[palette[pixel] for pixel in image.row(y)] for y in range(height)] for image in images]
        frames = read_gif(b"".join(gif(((image, 7) for image in images), palette, count - 1)))
        faults += [] if frames == [(7, rows) for rows in wanted] else [f"a film of {count} colours differs"]
        faults += [] if read_png(png(images[0], palette)) == wanted[0] else [f"an image of {count} colours differs"]
    return faults


def problem(folder, paths):
    plan = folder / "plan.txt"
    plan.write_text(plan_text(paths))
    return [MAP, SCEN, len(paths), plan]


def picture_faults(folder, paths):
    """At each tick, and after the last, each agent is where its path says."""
    faults = []
    for tick in range(max(map(len, paths)) + 2):
        ended = drawn([*problem(folder, paths), "--png", tick])
        faults += [f"tick {tick}: {fault}" for fault in scene_faults(read_png(ended.stdout), paths, tick)]
    return faults


def film_faults(folder, paths):
    ended = drawn([*problem(folder, paths), "--gif"])
    frames = read_gif(ended.stdout)
    faults = [] if len(frames) == max(map(len, paths)) else [f"{len(frames)} frames"]
    faults += [] if frames[0][0] == 25 and frames[-1][0] > 25 else ["each tick is shown equally long"]
    for tick, (_, rows) in enumerate(frames):
        faults += [f"tick {tick}: {fault}" for fault in scene_faults(rows, paths, tick)]
    return faults


def scene_faults(rows, paths, tick):
    """What is wrong with a picture of the crossing, whose map has 3 columns and 3 rows: the colour of each agent has to
    be near the border of its disc, where no number is, and nobody's there where nobody is, comes by or goes to.
    """
    side = len(rows) // 3
    faults = [] if len(rows) == len(rows[0]) == 3 * side and side > 20 else [f"{len(rows[0])} by {len(rows)} pixels"]
    wanted = [tuple(int(colour[at:at + 2], 16) for at in (1, 3, 5)) for colour in colours(len(paths))]
    at = [path[min(tick, len(path) - 1)] for path in paths]
    for agent, (x, y) in enumerate(at):
        if (x, y) in at[agent + 1:] or not (0 <= x < 3 and 0 <= y < 3):
            continue  # another one lies above it, or it is outside
        found = rows[y * side + side // 2 + side // 4][x * side + side // 2 + side // 4]
        faults += [] if found == wanted[agent] else [f"agent {agent} isn't in ({x},{y}): there is {found}"]
    used = {cell for path in paths for cell in path} | {(2, 1), (1, 2)}
    for x, y in {(x, y) for x in range(3) for y in range(3)} - used:
        found = {rows[y * side + down][x * side + right] for down in range(side) for right in range(side)}
        faults += [f"a colour of an agent is in ({x},{y})"] if found & set(wanted) else []
    return faults


def large_faults(folder):
    """On a map of which a cell has few pixels each agent is seen, and so is what is blocked."""
    grid, scenario, paths = large_problem(folder)
    plan = folder / "large.txt"
    plan.write_text(plan_text(paths))
    rows = read_png(drawn([grid, scenario, len(paths), plan, "--png", 100]).stdout)
    cell = len(rows) // 512
    wanted = [tuple(int(colour[at:at + 2], 16) for at in (1, 3, 5)) for colour in colours(len(paths))]
    faults = [f"agent {agent} isn't seen" for agent, path in enumerate(paths)
              if rows[path[100][1] * cell + cell // 2][path[100][0] * cell + cell // 2] != wanted[agent]]
    free, blocked = rows[511 * cell][0], rows[510 * cell][cell]
    return faults[:3] + ([] if free != blocked else ["what is blocked isn't seen"])


def word_faults(folder):
    """A tick has to be a number, and a picture is no film. Of a plan that isn't valid a line tells so."""
    faults = []
    for words in (["--png", "x"], ["--png", "-1"], ["--png"], ["--png", "0", "--gif"]):
        ended = drawn([*problem(folder, VALID), *words])
        if ended.returncode != 2 or ended.stdout or not ended.stderr:
            faults.append(f"{words}: status {ended.returncode}, {ended.stderr}")
    ended = subprocess.run([sys.executable, str(DRAW), *map(str, problem(folder, BAD)), "--gif"], capture_output=True)
    if ended.returncode != 0 or b"isn't valid" not in ended.stderr:
        faults.append(f"status {ended.returncode}, {ended.stderr}")
    return faults
