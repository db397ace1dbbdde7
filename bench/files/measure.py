#!/usr/bin/env python3
"""Plays a script on a built dc_shell with its logs in files, and kills it on the way.

    python3 bench/files/measure.py [PROGRAM] [LINES] [KILLS]

PROGRAM is crates/dc_shell/out/dc_shell, which `rt run` in crates/dc_shell leaves there, LINES 2,000 and KILLS 50. The
script is that of bench/crashes, with messages, crashes, faults and restarts. First it is played to its end, in memory
and with `--data`: the replies have to be the same, and every file a log that holds what they tell. Then it is played
KILLS times with `--data`, and killed (SIGKILL) at some moment: again every reply that came has to stand in a log, so
that what was acknowledged isn't lost. Prints the times and the counts, and ends with 1 at the first that isn't so."""
import os
import random
import subprocess
import sys
import tempfile
import threading
import time

HERE = os.path.dirname(os.path.abspath(__file__))
PROGRAM = sys.argv[1] if len(sys.argv) > 1 else os.path.join(HERE, "../../crates/dc_shell/out/dc_shell")
LINES = int(sys.argv[2]) if len(sys.argv) > 2 else 2_000
KILLS = int(sys.argv[3]) if len(sys.argv) > 3 else 50
GENERATOR = os.path.join(HERE, "../crashes/generate.py")
HEAD = b"CURELOG1"
NEW = HEAD + b"\0"
BATCH = 6
# Which code a record has for what a reply tells. An end may be told again, so one record may serve several replies.
TOLD = {"prepared": 2, "decided": 3, "finished": 4, "aborted": 5}


def payloads_of(path):
    """The payloads of a log; what stands behind its closed gate doesn't count. A new file may not be one yet."""
    with open(path, "rb") as log:
        read = log.read()
    if len(read) < len(NEW) and NEW.startswith(read):
        return []
    if not read.startswith(HEAD):
        sys.exit("%s: no log" % path)
    at, payloads = len(HEAD), []
    while read[at] == 1:
        size = int.from_bytes(read[at + 1 : at + 5], "big")
        payloads.append(read[at + 5 : at + 5 + size])
        if len(payloads[-1]) != size or size == 0:
            sys.exit("%s: a record is cut off at %d" % (path, at))
        at += 5 + size
    return payloads


def logged(folder):
    """What the logs of a folder hold: the place, code and transaction of records, and the place and end of batches."""
    held = set()
    for name in os.listdir(folder):
        place = name[: -len(".log")]
        for payload in payloads_of(os.path.join(folder, name)):
            if payload[0] in TOLD.values():
                tx = "%d.%d#%d" % (payload[1], payload[2], int.from_bytes(payload[3:11], "big"))
                held.add((place, payload[0], tx))
            elif payload[0] == BATCH:
                held.add((place, BATCH, int.from_bytes(payload[12:20], "big")))
    return held


def acknowledged(replies, counts):
    """What whole lines of replies tell that a log has to hold; `counts` are the parts of each message."""
    told, places = set(), {}
    for line in replies.split("\n")[:-1]:
        words = line.split()
        if words[0] in TOLD and len(words) > 2:
            told.add((words[1], TOLD[words[0]], words[2]))
        elif words[0] == "sent":
            counts[words[1]], places[words[1]] = int(words[-1]), "%s.%s" % (words[3], words[2].split(".")[1])
        elif words[0] == "took" and counts.get(words[1]):
            told.add((places[words[1]], BATCH, int(words[2])))
    return told


def check(folder, replies):
    """How many replies tell of records. Each has to stand in a log of the folder, an end also as another's."""
    told, held = acknowledged(replies, {}), logged(folder)
    ends = {(place, tx) for place, code, tx in held if code in (3, 4)}
    lost = [it for it in told - held if not (it[1] == 4 and (it[0], it[2]) in ends)]
    if lost:
        sys.exit("acknowledged, and not in a log: %s" % lost[:5])
    return len(told)


def play(script, *words):
    """The replies to the script, and the seconds that they took."""
    begun = time.time()
    with open(script, "rb") as source:
        ran = subprocess.run([PROGRAM, "play", *words], stdin=source, stdout=subprocess.PIPE, check=True)
    return ran.stdout.decode(), time.time() - begun


def kill_on_the_way(lines, after):
    """Plays line by line, waiting for each reply, until the program is killed; checks what came before."""
    with tempfile.TemporaryDirectory() as folder:
        ran = subprocess.Popen([PROGRAM, "play", "--data", folder], stdin=subprocess.PIPE, stdout=subprocess.PIPE)
        timer = threading.Timer(after, ran.kill)
        timer.start()
        replies = b""
        try:
            for line in lines:
                ran.stdin.write(line)
                ran.stdin.flush()
                replies += os.read(ran.stdout.fileno(), 1 << 20)
        except BrokenPipeError:
            pass
        timer.cancel()
        ran.kill()
        replies += ran.stdout.read()
        ran.wait()
        return check(folder, replies.decode())


def main():
    with tempfile.TemporaryDirectory() as folder:
        script, logs = os.path.join(folder, "script"), os.path.join(folder, "logs")
        os.mkdir(logs)
        with open(script, "wb") as sink:
            subprocess.run([sys.executable, GENERATOR, str(LINES)], stdout=sink, check=True)
        replies, in_memory = play(script)
        again, in_files = play(script, "--data", logs)
        if again != replies:
            sys.exit("the replies differ")
        told = check(logs, replies)
        size = sum(os.path.getsize(os.path.join(logs, name)) for name in os.listdir(logs))
        print("%d lines: %.2f s in memory, %.2f s in files (%d kB); the same replies" % (LINES, in_memory, in_files, size / 1000))
        print("%d replies tell of records, and each stands in a log" % told)
        with open(script, "rb") as source:
            lines = source.readlines()
        counts = [kill_on_the_way(lines, random.uniform(0.02, in_files)) for _ in range(KILLS)]
    print("killed %d times, after %d to %d such replies: none is lost" % (KILLS, min(counts), max(counts)))


main()
