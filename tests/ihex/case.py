"""A text, how it is read, and what must come of it."""
import collections

# lines: the numbers that the line may have.
Case = collections.namedtuple("Case", "name text base length buffer answer lines after")
SIZE, AREA, TEXT, PLACE, TWICE = 5, 8, 16, 17, 18


def accepted(name, text, base, image, buffer):
    return Case(name, text, base, len(image), buffer, 0, [0], image + buffer[len(image) :])


def refused(name, text, base, length, buffer, answer, line):
    return Case(name, text, base, length, buffer, answer, [line], buffer)
