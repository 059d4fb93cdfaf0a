#!/usr/bin/env python3
"""Compares sessions over memory with a plain model of a session, over scripts that are made from a seed.

A script has a few clients, who come to a few desks and leave them, say lawful and unlawful lines in pieces, and are cut
off; a turn of a session or of a table's worker is made where it says so, all on one thread. What is put on each link, how
each session ends, what each turn comes to and what each desk lists as asked for is compared, byte by byte. A script that
tells the two apart is made as short as it can be, and is printed with both texts. It says how many scripts, lines, hands
and takes there were, how often each reply came and how sessions ended. The status is 1 where a script told them apart.

Usage: bench/sessions.py --program PATH | --crate FOLDER [--scripts N] [--seed N] [--jobs N]

The program is that of bench/sessions.txt; bench/sessions.sh builds it and runs this. With --crate its sources are there,
and `rt try` runs them before any proof; then the scripts that tell the two apart are named by the first seed of their
share, and no script is made shorter.
"""
import argparse
import multiprocessing
import os
import re
import subprocess
import sys
import tempfile
from collections import Counter
from dataclasses import replace

from rules.session_maker import SessionMaker
from rules.sessions import Endless, played, script_text

AT_ONCE = 25
MOST_PRINTED = 5


def options():
    words = argparse.ArgumentParser()
    meant = words.add_mutually_exclusive_group(required=True)
    meant.add_argument("--program")
    meant.add_argument("--crate")
    words.add_argument("--scripts", type=int, default=10_000)
    words.add_argument("--seed", type=int, default=1)
    words.add_argument("--jobs", type=int, default=multiprocessing.cpu_count())
    return words.parse_args()


def ran(program, scripts):
    """What the program tells of scripts; its status and err stand behind it where they are not those of a good end."""
    text = "".join(map(script_text, scripts)).encode()
    run = subprocess.run([program], input=text, capture_output=True, check=False)
    ended = b"" if (run.returncode, run.stderr) == (0, b"") else b"status %d, err %r\n" % (run.returncode, run.stderr)
    return run.stdout + ended


def differs(program, script):
    try:
        return ran(program, [script]) != played(script).told()
    except Endless:
        return False


def shorter(items, is_good):
    """Leaves items out, many at once and then one by one, while it is good."""
    step = max(1, len(items) // 2)
    while step:
        place = 0
        while place < len(items):
            fewer = items[:place] + items[place + step:]
            if is_good(fewer):
                items = fewer
            else:
                place += step
        step //= 2
    return items


def shortest(program, script):
    """The same difference with fewer steps and with less said."""
    deeds = shorter(script.deeds, lambda deeds: differs(program, replace(script, deeds=deeds)))
    script = replace(script, deeds=deeds)
    for number, client in enumerate(script.clients):
        def with_says(says):
            clients = list(script.clients)
            clients[number] = replace(client, says=says)
            return replace(script, clients=clients)
        script = with_says(shorter(client.says, lambda says: differs(program, with_says(says))))
    return script


def print_script(seed, script, given, told):
    print(f"---- script {seed} tells them apart\n{script.plan.decode()}seed {script.seed.hex()}, {script.desks} desks")
    for number, client in enumerate(script.clients):
        if client.says:
            print(f"client {number}, room {client.room}, failing {client.failing}: {client.says}")
    print(*(" ".join(map(str, deed)) for deed in script.deeds), sep="\n")
    print(f"---- the program\n{given.decode('latin-1')}---- the model\n{told.decode('latin-1')}", flush=True)


def replies(hall):
    """How often each reply was put in a script."""
    lines = [line for link in hall.links.values() for line in link.written.split(b"\n") if line.startswith(b"= ")]
    return Counter(line[2:].decode() for line in lines)


def count(halls):
    """How many there are of what is counted in these scripts."""
    counts = {"sums": Counter(), "replies": Counter(), "ends": Counter(), "workers": Counter()}
    for hall in halls:
        book, links = hall.served.book, hall.links.values()
        counts["sums"].update(scripts=1, hands=book.hands_begun, showdowns=book.showdowns, out=len(book.busts),
                              clients=len(links), calls=sum(link.calls for link in links),
                              told=sum(link.written.count(b"\n") for link in links))
        counts["replies"].update(replies(hall))
        counts["ends"].update(hall.ends.get(client, "open") for client in hall.links)
        counts["workers"].update(line[5:] for line in hall.lines if line.startswith("work "))
    return counts


def made(seeds):
    """The scripts of some seeds, each played on the model."""
    scripts = [SessionMaker(seed).make() for seed in seeds]
    return scripts, list(map(played, scripts))


def put_case(share):
    """Makes the scripts of some seeds, and writes them into a folder as a case of `rt try`."""
    folder, seeds = share
    scripts, halls = made(seeds)
    case = os.path.join(folder, f"case{seeds[0]}")
    with open(case, "w", encoding="ascii") as file:
        file.writelines(map(script_text, scripts))
    with open(f"{case}.stdout", "wb") as file:
        file.writelines(hall.told() for hall in halls)
    return count(halls), []


def tried(crate, folder):
    """Has `rt try` run the cases of a folder, and gives the first seeds of those that differ."""
    run = subprocess.run(["rt", "try", "--seconds", "600", "--cases", folder], capture_output=True, text=True, check=False, cwd=crate)
    cases = re.findall(r"^.*case=case(\d+) (.*)$", run.stderr, re.MULTILINE)
    if not cases:
        raise SystemExit(run.stderr)
    return [int(seed) for seed, told in cases if not re.search("run=ended status=0 .*output=expected", told)]


def compared(share):
    """Makes the scripts of some seeds, and gives what is counted in them and the seeds that tell the two apart."""
    program, seeds = share
    scripts, halls = made(seeds)
    apart = []
    if ran(program, scripts) != b"".join(hall.told() for hall in halls):
        apart = [seed for seed, script in zip(seeds, scripts) if differs(program, script)]
    return count(halls), apart


def print_counts(counts):
    sums = counts["sums"]
    print(f"{sums['scripts']} scripts with {sums['clients']} clients, whose links were called {sums['calls']} times; "
          f"{counts['replies'].total()} lines, {sums['told'] - counts['replies'].total()} lines of news; "
          f"{sums['hands']} hands begun, {sums['showdowns']} showdowns, {sums['out']} players out")
    print("sessions:", ", ".join(f"{number} {end}" for end, number in counts["ends"].most_common()))
    print("turns of workers:", ", ".join(f"{number} {turn}" for turn, number in counts["workers"].most_common()))
    for reply in sorted(counts["replies"], key=lambda reply: int(reply.split()[1]) if reply.startswith("no ") else 0):
        print(f"{counts['replies'][reply]:9} {reply}")


def all_of(jobs, work, meant, seeds):
    """Does the work for all shares of the seeds."""
    counts, apart = None, []
    shares = [(meant, seeds[at:at + AT_ONCE]) for at in range(0, len(seeds), AT_ONCE)]
    with multiprocessing.Pool(jobs) as pool:
        for found, different in pool.imap_unordered(work, shares):
            counts = found if counts is None else {name: counts[name] + found[name] for name in counts}
            apart += different
    return counts, sorted(apart)


def main():
    words = options()
    seeds = [words.seed * 1_000_000 + number for number in range(words.scripts)]
    if words.crate:
        with tempfile.TemporaryDirectory() as folder:
            counts, _ = all_of(words.jobs, put_case, folder, seeds)
            apart = tried(words.crate, folder)
        print_counts(counts)
        print("shares that tell the program and the model apart:", *apart or ["none"])
        return int(bool(apart))
    counts, apart = all_of(words.jobs, compared, words.program, seeds)
    print_counts(counts)
    for seed in apart[:MOST_PRINTED]:
        script = shortest(words.program, SessionMaker(seed).make())
        print_script(seed, script, ran(words.program, [script]), played(script).told())
    print(f"scripts that tell the program and the model apart: {len(apart)}")
    return int(bool(apart))


if __name__ == "__main__":
    sys.exit(main())
