"""Steps: lines, each with its answer. A line is anything with a verb and arguments; a blank line has the answer None.

An answer of several lines is one text.
"""


def steps_of(lines, output):
    """Each line with its answer, and what is left of the output. A find that found rows has as many lines more."""
    written, place, steps = output.split("\n"), 0, []
    for line in lines:
        count = 0 if line.verb == "blank" else 1
        if count and line.verb == "find" and written[place:place + 1] and written[place].startswith("found "):
            count += int("0" + "".join(filter(str.isdigit, written[place][6:12])))
        steps.append((line, "\n".join(written[place:place + count]) if count else None))
        place += count
    return steps, "\n".join(written[place:])


def first_difference(steps, answers):
    """The first place at which an answer isn't the expected one, and which is; or none."""
    differences = ((place, due) for place, ((_, answer), due) in enumerate(zip(steps, answers)) if answer != due)
    return next(((place, f"{due!r} is due") for place, due in differences), None)
