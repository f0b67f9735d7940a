"""The sections of reports: from a line that opens one to the last line that belongs to it; exchanged, or left out with their count.

Nothing here knows what a line claims.
"""

GAPS = {"turn", "cut", "bend", "fold"}
INNER = {
    "contour": {"at", "seg", "least"} | GAPS, "seg": {"least"}, "face": {"patch", "on", "off"}, "patch": {"on", "off"},
    "cycle": {"arc"} | GAPS, "chain": {"piece"} | GAPS, "piece": GAPS,
}
# Where a line of the first kind tells how many of the second there are: the place of that number among its words.
COUNTED = {"at": ("contour", 4), "seg": ("contour", 5), "on": ("patch", 1), "arc": ("cycle", 5), "piece": ("chain", 5), "ball": ("balls", -1)}


def first_word(line):
    return line.split(" ")[0]


def block_end(lines, begin):
    """Where the section that a line opens ends: all lines that belong to it, or else all that have its first word."""
    first, k = first_word(lines[begin]), begin + 1
    inner = INNER.get(first, {first})
    while k < len(lines) and first_word(lines[k]) in inner:
        k += 1
    return k


def exchanged_blocks(lines, begin):
    """The lines with the section that a line opens and the next one exchanged; None where none comes next."""
    middle = block_end(lines, begin)
    if middle == len(lines):
        return None
    end = block_end(lines, middle)
    return lines[:begin] + lines[middle:end] + lines[begin:middle] + lines[end:]


def gap_lines(lines, begin, k):
    """The places of the lines of gap k behind the segments or arcs of which one is at `begin`."""
    while first_word(lines[begin]) not in GAPS:
        begin += 1
    each = 2 if first_word(lines[begin]) in ("turn", "cut") else 1
    return range(begin + each * k, begin + each * (k + 1))


def pruned(lines, place):
    """The lines without what one opens, and with the number that counts it one smaller; None where no number does."""
    first = first_word(lines[place])
    if first not in COUNTED:
        return None
    above, k = counter_of(lines, place)
    out = set(range(place, block_end(lines, place) if first in ("seg", "piece") else place + 1))
    if first in ("seg", "arc"):
        before = sum(first_word(line) == first for line in lines[above:place])
        out |= set(gap_lines(lines, place, before))
    left = [line for j, line in enumerate(lines) if j not in out]
    left[above] = counted_anew(lines[above], k, -1)
    return left


def counter_of(lines, place):
    """The place of the line that tells how many lines there are of the kind of the one at a place, and which of its words does."""
    first = first_word(lines[place])
    counter, k = COUNTED[first]
    return max(j for j in range(place) if first_word(lines[j]) == counter), k


def counted_anew(line, k, change):
    """The line with one of its numbers changed by so much."""
    words = line.split(" ")
    words[k] = str(int(words[k]) + change)
    return " ".join(words)


def without_least(lines, place):
    """The lines without `least` lines, with a heading that says so, and where the line at a place stands then."""
    left = [line for line in lines if first_word(line) != "least"]
    left[0] = left[0].replace("shape 2", "shape 1", 1)
    return left, place - sum(first_word(line) == "least" for line in lines[:place])


def grown(draw, lines, place):
    """The lines with a part of a segment or arc put in before or behind it, or its end in the next round before the first one."""
    above, k = counter_of(lines, place)
    first, b, e, *rest = lines[place].split(" ")
    b, e, n = int(b), int(e), int(lines[above].split(" ")[4])
    before = min(j for j in range(above, len(lines)) if first_word(lines[j]) == first)
    behind = block_end(lines, place) if first == "seg" else place + 1
    part, at = ((0, e - n), before) if e >= n else draw.choice((((b + 1, e), behind), ((b, e - 1), place)))
    put = [" ".join([first, str(part[0]), str(part[1])] + rest)]
    if lines[place + 1].startswith("least "):
        put.append(lines[place + 1])
    return lines[:above] + [counted_anew(lines[above], k, 1)] + lines[above + 1 : at] + put + lines[at:]


def without_counted(lines, place):
    """The lines without all that the line at a place counts, which says 0 then; None where it counts none."""
    kinds = {counter: k for first, (counter, k) in COUNTED.items() if first != "at"}
    first = first_word(lines[place])
    if first not in kinds:
        return None
    gone = {"contour": {"seg", "least"} | GAPS, "cycle": {"arc"} | GAPS, "chain": {"piece"} | GAPS, "patch": {"on", "off"}, "balls": {"ball"}}[first]
    end = place + 1
    while end < len(lines) and first_word(lines[end]) in gone | {"at"}:
        end += 1
    words = lines[place].split(" ")
    words[kinds[first]] = "0"
    inner = [line for line in lines[place + 1 : end] if first_word(line) == "at"]
    return lines[:place] + [" ".join(words)] + inner + lines[end:]
