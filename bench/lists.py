"""Made lists of events as cases of the program beside the model, as short as they can be where the two differ."""
import runs
from model import told_of
from rules.lines import lines_of
from rules.maker import Maker


def made(options):
    """As many lists as are asked for, made from a seed."""
    return [Maker(options.seed * 1_000_000 + number).make() for number in range(options.lists)]


def joined(lines):
    return b"".join(line + b"\n" for line in lines)


def case_of(words, text):
    return runs.case_of(words, text, told_of(words, text))


def shortest(program, case):
    """Leaves lines out, many at once and then one by one, while the two still differ."""
    lines = lines_of(case.data)
    step = max(1, len(lines) // 2)
    while step:
        place = 0
        while place < len(lines):
            fewer = lines[:place] + lines[place + step:]
            if runs.differs(program, case_of(case.words, joined(fewer))):
                lines = fewer
            else:
                place += step
        step //= 2
    return case_of(case.words, joined(lines))
