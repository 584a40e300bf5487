#!/usr/bin/env python3
"""What refuse_memory.sh asks the program, and what it has to answer: usage: refuse_memory.py PROGRAM SHIM all|quick

A row has calls with their ample answers, which are those of docs/SCRIPT.md's rules; the last rows are on a file alone."""
import os
import shutil
import signal
import subprocess
import sys

PROGRAM, SHIM, HOW = sys.argv[1:]
LACKS = "refused 10 memory"
# Calls that may be refused memory; no other may.
MAY_LACK = {"INSERT", "DELETE", "OVERLAP", "WITHIN", "EQUAL", "COVERS"}
# How many allocations the last run of each command asked for, and how many of them were refused.
ASKED, REFUSED = {}, {}
FORMATTED = {(16, 4): "formatted pages 16 fanout 4", (8, 4): "formatted pages 8 fanout 4", (4096, 8): "formatted pages 4096 fanout 8"}


def calls(text):
    """Lines and their answers, written as LINE > ANSWER; ANSWER .."""
    found = []
    for line in text.strip().splitlines():
        asked, answers = line.split(">")
        found.append((asked.strip(), [answer.strip() for answer in answers.split(";") if answer.strip()]))
    return found


SEVEN = "1 BEGIN > 1 ok\n1 INSERT 7 0 0 1 1 > 1 inserted\n1 COMMIT > 1 committed 1\n"
GONE = SEVEN + "1 BEGIN > 1 ok\n1 DELETE 7 0 0 1 1 > 1 deleted\n1 COMMIT > 1 committed 2\n"
FIVE = ["0 0 1 1", "0 2 1 3", "10 0 11 1", "10 2 11 3", "0 4 1 5"]
SCRIPTS = {
    "a commit is found": """1 BEGIN > 1 ok
        1 INSERT 7 0 0 10 10 > 1 inserted
        1 COMMIT > 1 committed 1
        1 BEGIN > 1 ok
        1 OVERLAP 10 10 20 20 > 1 found 1; 1 entry 7 0 0 10 10""",
    "the plane is empty": """1 BEGIN > 1 ok
        1 OVERLAP -2147483648 -2147483648 2147483647 2147483647 > 1 found 0""",
    "nothing is asked": "",
    "a bad box": "1 BEGIN > 1 ok\n1 INSERT 7 5 0 4 9 > 1 refused 6 bad box",
    "two boxes of a row": """1 BEGIN > 1 ok
        1 INSERT 7 0 0 1 1 > 1 inserted
        1 INSERT 7 0 0 1 1 > 1 refused 3 present
        1 INSERT 7 0 0 1 2 > 1 inserted
        1 OVERLAP 0 0 9 9 > 1 found 2; 1 entry 7 0 0 1 1; 1 entry 7 0 0 1 2""",
    "a claim": """1 BEGIN > 1 ok
        2 BEGIN > 2 ok
        1 INSERT 7 0 0 1 1 > 1 inserted
        2 OVERLAP 1 1 5 5 > 2 refused 5 busy 1
        2 OVERLAP 2 2 5 5 > 2 found 0""",
    "a predicate": """1 BEGIN > 1 ok
        2 BEGIN > 2 ok
        2 OVERLAP 0 0 9 9 > 2 found 0
        1 INSERT 8 9 9 12 12 > 1 refused 5 busy 2""",
    "aborted deletes": SEVEN + """1 BEGIN > 1 ok
        1 DELETE 7 0 0 1 1 > 1 deleted
        1 INSERT 7 0 0 1 1 > 1 inserted
        1 ABORT > 1 aborted
        1 BEGIN > 1 ok
        1 DELETE 7 0 0 1 1 > 1 deleted
        1 ABORT > 1 aborted
        1 BEGIN > 1 ok
        1 EQUAL 0 0 1 1 > 1 found 1; 1 entry 7 0 0 1 1""",
    "an aborted insert": GONE + """1 BEGIN > 1 ok
        1 INSERT 7 0 0 1 1 > 1 inserted
        1 ABORT > 1 aborted
        1 BEGIN > 1 ok
        1 DELETE 7 0 0 1 1 > 1 refused 4 absent""",
    "refusals": """1 COMMIT > 1 refused 1 no transaction
        9 BEGIN > 9 refused 15 bad session
        1 HELLO > line 3 bad
        1 BEGIN > 1 ok
        1 BEGIN > 1 refused 2 in transaction""",
    "queries": """1 BEGIN > 1 ok
        1 INSERT 1 0 0 2 2 > 1 inserted
        1 INSERT 2 1 1 3 3 > 1 inserted
        1 COMMIT > 1 committed 1
        1 BEGIN > 1 ok
        1 WITHIN 0 0 2 2 > 1 found 1; 1 entry 1 0 0 2 2
        1 EQUAL 1 1 3 3 > 1 found 1; 1 entry 2 1 1 3 3
        1 OVERLAP 2 2 2 2 > 1 found 2; 1 entry 1 0 0 2 2; 1 entry 2 1 1 3 3
        1 COVERS 0 0 1 1 > 1 found 1; 1 entry 1 0 0 2 2""",
    "seventeen searches": "1 BEGIN > 1 ok\n"
        + "".join(f"1 EQUAL {i} 0 {i} 0 > 1 found 0\n" for i in range(16))
        + "1 EQUAL 16 0 16 0 > 1 refused 9 predicates full\n1 EQUAL 0 0 0 0 > 1 found 0",
}
# On a file: pages, entries a node, the script, and the tree that a dump prints then.
ON_FILE = {
    "an aborted split": (16, 4, "1 BEGIN > 1 ok\n"
        + "".join(f"1 INSERT {i + 1} {box} > 1 inserted\n" for i, box in enumerate(FIVE)) + "1 ABORT > 1 aborted",
        """commits 0 used 3 counter 1
        page 1 level 1 nsn 0 right 0 count 2
        child 2 0 0 1 5
        child 3 10 0 11 3
        page 2 level 0 nsn 1 right 3 count 3
        entry 1 0 0 1 1 marked
        entry 2 0 2 1 3 marked
        entry 5 0 4 1 5 marked
        page 3 level 0 nsn 0 right 0 count 2
        entry 3 10 0 11 1 marked
        entry 4 10 2 11 3 marked"""),
    "a swept leaf": (16, 4, "1 BEGIN > 1 ok\n"
        + "".join(f"1 INSERT {i + 1} {box} > 1 inserted\n" for i, box in enumerate(FIVE[:4])) + "1 COMMIT > 1 committed 1\n1 BEGIN > 1 ok\n"
        + "".join(f"1 DELETE {i + 1} {box} > 1 deleted\n" for i, box in enumerate(FIVE[:4])) + "1 COMMIT > 1 committed 2\n"
        + f"1 BEGIN > 1 ok\n1 INSERT 5 {FIVE[4]} > 1 inserted\n1 COMMIT > 1 committed 3",
        """commits 3 used 2 counter 0
        page 1 level 1 nsn 0 right 0 count 1
        child 2 0 0 11 5
        page 2 level 0 nsn 0 right 0 count 1
        entry 5 0 4 1 5 live"""),
    "no page is left": (8, 4, "1 BEGIN > 1 ok\n"
        + "".join(f"1 INSERT {i} {10 * i} 0 {10 * i + 1} 1 > 1 inserted\n" for i in range(1, 13))
        + "1 INSERT 13 130 0 131 1 > 1 refused 7 pages full\n1 COMMIT > 1 committed 1\n1 BEGIN > 1 ok\n1 OVERLAP 0 0 999 999 > 1 found 12; "
        + "; ".join(f"1 entry {i} {10 * i} 0 {10 * i + 1} 1" for i in range(1, 13)), None),
}


def fail(text):
    sys.exit(f"FAILED {text}")


def start(words, refused=0):
    """Starts the program with these arguments; its allocation of this number is refused."""
    env = {**os.environ, "LD_PRELOAD": SHIM, "REFUSE": str(refused), "COUNTED": "counted"}
    return subprocess.Popen([PROGRAM, *words], stdin=subprocess.PIPE, stdout=subprocess.PIPE, stderr=subprocess.PIPE, text=True, env=env)


def counted():
    """How many allocations the last run asked for, and how many were refused."""
    with open("counted") as file:
        asked, refused = (int(word) for word in file.read().split())
    os.remove("counted")
    return asked, refused


def ask(name, child, line, wanted):
    """Asks a line, once more if it is refused memory. Whether it was; None if the program is at its end, refused memory alone."""
    lacked = False
    while True:
        try:
            child.stdin.write(line + "\n")
            child.stdin.flush()
        except BrokenPipeError:
            pass
        first = child.stdout.readline().rstrip("\n")
        if first == LACKS and not child.stdout.read():
            return None
        if first == f"{line.split()[0]} {LACKS}" and line.split()[1] in MAY_LACK and not lacked:
            lacked = True
            continue
        told = [first] + [child.stdout.readline().rstrip("\n") for _ in wanted[1:]]
        if told != wanted:
            fail(f"{name}: {line}: {told}, not {wanted}")
        return lacked


def end(child):
    """Closes its input and waits: its status, and the rest of its output. Keeps how many allocations its command asked for."""
    try:
        child.stdin.close()
    except BrokenPipeError:
        pass
    rest = child.stdout.read()
    child.stderr.read()
    status = child.wait()
    ASKED[child.args[1]], REFUSED[child.args[1]] = counted()
    return status, rest


def run(name, words, script, refused=0):
    """Runs a script call by call. How many calls were refused memory; None if the program was."""
    child = start(words, refused)
    lacked = 0
    for line, wanted in script:
        told = ask(name, child, line, wanted)
        if told is None:
            if end(child)[0] != 1:
                fail(f"{name}: another status")
            return None
        lacked += told
    status, rest = end(child)
    if (status, rest) == (1, LACKS + "\n"):
        return None
    if (status, rest) != (0, ""):
        fail(f"{name}: status {status}, and {rest!r} at the end")
    return lacked


def tell(name, words, ample, refused=0):
    """Runs a command that reads nothing. Whether it was refused memory, perhaps after a beginning of what it writes."""
    child = start(words, refused)
    status, text = end(child)
    if (status, text) == (0, ample):
        return False
    if status == 1 and text.endswith(LACKS + "\n") and ample.startswith(text[: -len(LACKS) - 1]):
        return True
    fail(f"{name}: status {status}, {text!r}")


class Counts:
    """How many allocations were refused, and what came of it."""

    def __init__(self):
        self.all = self.program = self.call = 0

    def add(self, lacked):
        self.all += 1
        self.program += lacked is None or lacked is True
        self.call += lacked is not None and lacked is not True and lacked > 0


def in_turn(command, once, counts):
    """Refuses each allocation that this command's ample run asks for, one after another."""
    if once(0) not in (0, False):
        fail("an ample run was refused memory")
    for number in range(1, ASKED[command] + 1):
        counts.add(once(number))


def format_file(pages, most, counts=None):
    words = ["format", "made", str(pages), str(most)]

    def once(refused):
        if os.path.exists("made"):
            os.remove("made")
        lacks = tell("format", words, FORMATTED[pages, most] + "\n", refused)
        if lacks:
            tell("format again", words, FORMATTED[pages, most] + "\n")
        return lacks

    if counts:
        in_turn("format", once, counts)
    once(0)


def holding(tree):
    """What verifying an index with this tree prints, if no transaction was open."""
    lines = tree.splitlines()
    commits, used = lines[0].split()[1::2][:2]
    return f"ok commits {commits} entries {sum(line.endswith(' live') for line in lines)} used {used}\n"


def on_file(name, pages, most, script, tree, counts):
    """Each allocation of a script on a new file is refused in turn, then each of the dump and of the verification of what it left."""
    format_file(pages, most)

    def once(refused):
        shutil.copyfile("made", "index")
        lacked = run(name, ["run", "index", "--frames", "16"], script, refused)
        if lacked is None and script:
            again = run(f"{name}, again", ["run", "index", "--frames", "16"], script)
            if again != 0:
                fail(f"{name}: refused again")
        if tree:
            tell(f"{name}, its tree", ["dump", "index"], tree)
        return lacked

    in_turn("run", once, counts)
    if tree:
        in_turn("dump", lambda refused: tell(f"{name}, its tree", ["dump", "index"], tree, refused), counts)
        in_turn("verify", lambda refused: tell(f"{name}, verified", ["verify", "index"], holding(tree), refused), counts)


def drawn():
    """Random calls of eight sessions that write and commit and abort, each in a separate strip; no searches."""
    lines, live, seed = [], {}, 1
    for turn in range(150):
        session = turn % 8 + 1
        lines.append(f"{session} BEGIN")
        mine = dict(live.get(session, {}))
        for _ in range(6):
            seed = (seed * 1103515245 + 12345) % (1 << 31)
            row = seed // 8 % 40
            box = f"{row * 10} {session * 100} {row * 10 + 5} {session * 100 + 5}"
            word = "DELETE" if row in mine and seed % 3 else "INSERT"
            lines.append(f"{session} {word} {session * 1000 + row} {box}")
            if word == "INSERT":
                mine[row] = box
            else:
                mine.pop(row, None)
        if turn % 5 == 4:
            lines.append(f"{session} ABORT")
        elif turn < 146:
            lines.append(f"{session} COMMIT")
            live[session] = mine
    return lines


def throughout():
    """All memory is refused from the end of an opening on. How many calls were answered, how many of them were refused memory, and how many
    allocations were refused. A write's look may be refused memory, so that its call changes nothing; no other call may, nor the settling. What
    follows a refused write is held to the kind of its answer alone."""
    lines = drawn()
    plain = subprocess.run([PROGRAM, "plain"], input="\n".join(lines) + "\n", capture_output=True, text=True).stdout.splitlines()
    if len(plain) != len(lines):
        fail("a call was answered otherwise in memory")
    format_file(4096, 8)
    child = start(["run", "made", "--frames", "16"])
    lacked = 0
    for number, (line, wanted) in enumerate(zip(lines, plain)):
        child.stdin.write(line + "\n")
        child.stdin.flush()
        told = child.stdout.readline().rstrip("\n")
        session, word = line.split()[:2]
        if told == f"{session} {LACKS}" and word in MAY_LACK:
            lacked += 1
        elif told != wanted and not (lacked and (word in MAY_LACK or told.split()[:2] == wanted.split()[:2])):
            fail(f"memory refused throughout: {line}: {told}, not {wanted}")
        if number == 0:
            child.send_signal(signal.SIGUSR1)
    if end(child) != (0, ""):
        fail("memory refused throughout: the settling")
    return len(lines), lacked, REFUSED["run"]


def main():
    counts = Counts()
    rows = list(SCRIPTS.items())
    if HOW == "quick":
        rows = rows[:1]
    for name, text in rows:
        script = calls(text)
        in_turn("plain", lambda refused: run(f"{name}, in memory", ["plain"], script, refused), counts)
        on_file(f"{name}, on a file", 16, 4, script, None, counts)
    format_file(16, 4, counts)
    files = list(ON_FILE.items())
    for name, (pages, most, text, tree) in files[:1] if HOW == "quick" else files:
        told = tree and "".join(line.strip() + "\n" for line in tree.splitlines())
        on_file(name, pages, most, calls(text), told, counts)
    print(f"{counts.all} allocations refused in turn: {counts.program} answered by the program, {counts.call} by one call")
    answered, lacked, refused = throughout()
    print(f"{answered} calls and a settling without memory, {lacked} of them refused it; {refused} allocations were asked for")
    print(f"{counts.all + 1} passed, 0 failed")


main()
