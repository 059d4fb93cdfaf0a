#!/usr/bin/env python3
"""Compares the program with the model over lists of events that are made from a seed, lawful and unlawful.

Each answer, each line of the report, the status and err are compared. So they are for what is kept of each list: its
accepted lines up to a stop, and its report behind them, of which each line is `ok` and which ends with that report
again. A list that tells the two apart is made as short as it can be, and is printed with both texts. It says how many
lists, lines, hands, notes and ties there are, how many entries come after somebody is out, how often each answer comes,
and how many entries, moves, levels, races and rounds are accepted; and in how many lists antes, a cap and re-entries
come beside each other, beside each game and beside all these. The status is 1 where a list told them apart.

Usage: bench/made_lists.py [--lists N] [--seed N] [--unproved] [--program PATH]

The program is the one of `./floor`; with --unproved it is built from the sources before any proof, by `rt try`.
"""
import sys
from collections import Counter

import lists
import runs
from rules.lines import lines_of
from rules.step import replayed
from rules.tournament import Tournament

OTHERS = ("balance", "break", "level", "race", "hands", "round")
MOVES = ("enter", "reenter", *OTHERS)
GAMES = ("holdem", "omaha", "hilo")
CHANGES = ("ante", "short ante", "missed ante", "cap", "reached cap", "reenter")


def with_its_report(text):
    """What is kept of a tournament: its accepted lines up to a stop, and its report behind them. The model answers `ok`
    to each line, and ends with the same report. None where no plan was given."""
    book = Tournament()
    answers, _ = replayed(text, book)
    if book.level == 0:
        return None
    lines = [line for line, answer in zip(lines_of(text), answers) if answer == "ok"]
    if not book.stopped:
        lines.append(b"stop")
    _, report = replayed(lists.joined(lines))
    kept = lists.joined(lines + [line.encode() for line in report])
    assert replayed(kept) == (["ok"] * len(lines_of(kept)), report), kept
    return kept


def accepted_words(text, given):
    """How often each first word of a line was accepted, `*` for notes; `* refused` for those that are too long."""
    words = Counter()
    for line, answer in zip(lines_of(text), given):
        if line.startswith(b"*"):
            words["*" if answer == "ok" else "* refused"] += 1
        elif answer == "ok":
            words[line.split()[0].decode()] += 1
    return words


def ties_in(report):
    """How many players share a place in a report."""
    places = Counter(line.split()[2] for line in report if line.startswith("* out "))
    return sum(players for players in places.values() if players > 1)


def parts_of(book, words, given):
    """What comes in a list in which a hand began: its game, antes and a cap, and what was accepted."""
    if not book.hands_begun:
        return set()
    is_there = {"ante": book.antes, "short ante": book.short_antes, "missed ante": book.missed_antes,
                "cap": "limit" in book.plan, "reached cap": "limit" in book.plan and "no 30 PastPot" in given}
    return {book.plan["game"], *(word for word in MOVES if words[word]), *(part for part in is_there if is_there[part])}


def say_pairs(parts):
    """In how many lists each of the changes comes, and comes beside what else."""
    for change in CHANGES:
        beside = Counter(other for each in parts if change in each for other in each)
        print(f"{change} in {beside.pop(change, 0)} lists, beside", ", ".join(
            f"{other} {beside[other]}" for other in (*CHANGES, *GAMES, *OTHERS) if other in beside))


def count(texts):
    """Says how many lines, hands, showdowns, players who go out, notes and ties there are, and how often each answer
    comes."""
    answers, games, counts, words, tables, parts = Counter(), Counter(), Counter(), Counter(), Counter(), []
    for text in texts:
        book = Tournament()
        given, report = replayed(text, book)
        games[book.plan.get("game", "no game")] += book.showdowns
        counts.update(hands=book.hands_begun, out=len(book.busts), over=book.is_over(), ties=ties_in(report),
                      late=book.entries_after_a_bust, antes=book.antes, short=book.short_antes,
                      missed=book.missed_antes)
        tables[len(book.tables)] += 1
        accepted = accepted_words(text, given)
        words.update(accepted)
        parts.append(parts_of(book, accepted, given))
        answers.update(" ".join(answer.split()[:3]) for answer in given)
    print(f"{len(texts)} lists, {answers.total()} lines, {counts['hands']} hands begun, "
          f"{words['begin'] - words['settle']} of them void or open at the end, {counts['out']} players out, "
          f"{counts['over']} tournaments over")
    print(f"{words['*']} notes, {words['* refused']} more that were too long; {counts['ties']} players who tie; "
          f"{counts['late']} entries after somebody was out")
    print(f"antes: {counts['antes']} in full, {counts['short']} short, {counts['missed']} not posted for want of chips")
    print("showdowns:", ", ".join(f"{game} {games[game]}" for game in GAMES))
    print("tables:", ", ".join(f"{number} in {tables[number]} lists" for number in sorted(tables)))
    print("accepted:", ", ".join(f"{word} {words[word]}" for word in MOVES if words[word]))
    for answer in sorted(answers, key=lambda answer: int(answer.split()[1]) if answer != "ok" else 0):
        print(f"{answers[answer]:9} {answer}")
    say_pairs(parts)


def main():
    words = runs.options(lists=1000, seed=1)
    texts = lists.made(words)
    count(texts)
    kept = list(filter(None, map(with_its_report, texts)))
    print(f"{len(kept)} of them are played again as what is accepted of them, with their reports behind it")
    found = runs.apart(words, [lists.case_of(["replay"], text) for text in texts + kept], lists.shortest)
    print(f"lists that tell the program and the model apart: {found}")
    return int(found > 0)


if __name__ == "__main__":
    sys.exit(main())
