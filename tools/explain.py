#!/usr/bin/env python3
"""Runs the program, and then says in plain words on standard error what its answer means.

    tools/explain.py PROGRAM WORD..

`./osposg` starts it where standard error is a terminal. Standard output and the exit code are the program's own. So that
a refused line can be shown, an input that can be read only once is copied first, to a file without a name, which is gone
when this process is. What is said here is no part of what is proved.
"""
import itertools
import os
import re
import resource
import select
import signal
import stat
import subprocess
import sys
import time

# The most bytes that the program takes of an input: one more than it accepts.
MOST = (1 << 26) + 1
# The commands that read nothing.
READ_NOTHING = ("gen",)
UNREADABLE, UNWRITABLE = 6, 7
# The signals that end a program from outside.
SIGNALS = (signal.SIGHUP, signal.SIGINT, signal.SIGQUIT, signal.SIGTERM)
# So many seconds lie between two notes that the program still runs, and so many characters of a line are shown.
PAUSE = 3
SHOWN = 120
# A front of the program's text that has all that is explained.
FRONT = 1024

GAME_DUE = {
    "": "osposg 1",
    "osposg": "size S A C O",
    "size": "total D",
    "total": "discount P Q, two whole numbers, 9 10 for 9/10",
    "discount": "first b0 b1 .., a weight for each state",
    "first": "step 0 0 0 r",
    "step": "out o t w",
    "out": "out o t w, or the next row's step s a c r, or end behind the last row",
}
GAME_LIMITS = {
    "size": "1 to 16 states, 1 to 6 own actions, 1 to 6 informed actions, 1 to 8 observations",
    "total": "1 to 1073741824",
    "discount": "P/Q with 0 <= P < Q <= 1048576",
    "first": "each weight 0 to 1048576",
    "step": "state and actions below the numbers of the size line, the reward -1073741824 to 1073741824",
    "out": "observation and next state below the numbers of the size line, the weight 1 to the row total",
}
GAME_KINDS = {
    1: "the first line with words must be: osposg 1",
    2: "the first word or the number of words is not what is due here: {due}",
    3: "a word where a number is due is no whole number: at most one sign, then digits, at most 36 characters",
    4: "a number is outside its limit: {limit}",
    5: {
        "step": "it is not the next row: rows come in rising order of state, own action, informed action, the last one fastest; "
        "or the row before it is missing",
        "out": "the out lines of a row rise by observation, then by next state, and none comes twice",
    },
    6: {
        "out": "with this weight the row sums to more than the row total of the total line",
        "step": "the row before this line sums to less than the row total of the total line",
        "end": "the row before this line sums to less than the row total of the total line",
    },
    7: "the weights of the first belief sum to 0 or to more than 1048576",
    8: "the reward is too large beside total and discount: D * Q * Q * |r| may be 2^72 at most",
    9: "a line is missing, or no line feed ends it; due here: {due}",
    10: "words follow the end line, and this command reads a game alone",
}
CERTIFICATE_DUE = {
    "": "certificate 1, or certificate 2",
    "certificate": "outcome closed, outcome trials or outcome full",
    "outcome": "gap A/B",
    "gap": "lower L/X",
    "lower": "upper Y/X",
    "upper": "tail T/X",
    "tail": "sizes n p",
    "sizes": "start i j in version 1, multiple N in version 2",
    "start": "node 0",
    "multiple": "from i x",
    "from": "from i x, or over j z",
    "over": "over j z, or node 0",
    "node": "vector x0 x1 .., a number for each state",
    "vector": "mix w0 w1 .., a weight for each own action",
    "mix": "next a o k w, or the next node, or the first point; in a point: mix s w0 w1 .. for the next state, then split "
    "a o k w, or the next point, or end behind the last one",
    "next": "next a o k w, or the next node, or point 0 behind the last node",
    "point": "belief b0 b1 .., a weight for each state",
    "belief": "value y",
    "value": "mix 0 w0 w1 .., a weight for each informed action",
    "split": "split a o k w, or the next point, or end behind the last one",
}
CERTIFICATE_LIMITS = {
    "gap": "A/B with A 0 to 2^40 and B 1 to 2^20",
    "lower": "the denominator is at least 1",
    "upper": "the denominator is at least 1",
    "tail": "the denominator is at least 1",
    "sizes": "at least one node, and at least as many points as states",
    "start": "no number is negative",
    "multiple": "1 to 65536",
    "from": "the node is not negative, the weight 1 to 65536",
    "over": "the point is not negative, the weight 1 to 2^36",
    "vector": "each number is at most the game's span, up or down",
    "mix": "each weight 0 to 65536",
    "next": "action and observation below the game's numbers of them, the node not negative, the weight 1 to 65536",
    "belief": "each weight 0 to 2^20",
    "value": "at most the game's span times the belief's total, up or down",
    "split": "action and observation below the game's numbers of them, the point not negative, the weight 1 to 2^66",
}
UNFINISHED_NODE = "in the node before this line the next lines of some pair of action and observation do not sum to the mix"
CERTIFICATE_KINDS = {
    1: "a certificate begins with: certificate 1, or certificate 2; at once behind the line feed of the game's end line",
    2: "the first word or the number of words is not what is due here, with single spaces: {due}",
    3: "a word where a number is due is no number: 0, or at most a minus and digits with no zero in front; a fraction is "
    "two of them with / between; single spaces part words",
    4: "a number is outside its limit: {limit}",
    5: {
        "from": "the from lines rise by node, and none comes twice",
        "over": "the over lines rise by point, and none comes twice",
        "node": "nodes are numbered 0, 1, 2 .. in their order",
        "point": "points are numbered 0, 1, 2 .. in their order",
        "next": "the next lines of a node rise by action, observation, node, and none comes twice",
        "split": "the split lines of a point rise by action, observation, point, and none comes twice",
        "mix": "the mix lines of a point are those of the states 0, 1, 2 .. in their order",
    },
    6: "it names a node or point that the certificate does not have: they are counted from 0, and the sizes line says how many",
    7: {
        "from": "the weights of the start nodes sum to more than 65536",
        "over": "the weights of the start nodes have a common divisor",
        "node": UNFINISHED_NODE,
        "point": UNFINISHED_NODE,
        "mix": "the weights must sum to 65536",
        "next": "the weights of a pair of action and observation must sum to the action's weight in the mix line: those of "
        "this pair sum to more, or an earlier pair lacks some",
        "belief": "the weights sum to 0 or to more than 2^20, or have a common divisor",
    },
    8: "something follows the end line of the certificate",
    9: "a certificate has at most 1024 nodes and 1024 points",
    10: "a line is missing, or no line feed ends it; due here: {due}",
}
TEXTS = {
    "game": (GAME_KINDS, GAME_DUE, GAME_LIMITS),
    "certificate": (CERTIFICATE_KINDS, CERTIFICATE_DUE, CERTIFICATE_LIMITS),
}
# The first place of a certificate that fails, by the program's words.
PLACES = (
    (
        r"no node (\d+) state (\d+) action (\d+)",
        "node {0} claims too much in state {1}: if the informed player takes action {2} there, this stage and going on are "
        "worth less than its vector says",
    ),
    (r"no corner (\d+)", "point {0} must have the belief 1 in state {0} and 0 elsewhere, as the first points do, one a state"),
    (
        r"no split (\d+) action (\d+) seen (\d+) state (\d+)",
        "point {0}: after own action {1} and observation {2} the split lines, weight times belief, must sum exactly to the "
        "mass, and in state {3} they do not",
    ),
    (
        r"no value (\d+) action (\d+)",
        "point {0} claims too little: if the maximiser takes own action {1}, this stage and going on are worth more than its "
        "value says",
    ),
    (r"no start", "the beliefs of the start points, each times its weight, do not make up the game's first belief"),
    (
        r"no bound",
        "the lines lower, upper and tail (4 to 6 of the certificate) must have exactly the fractions, not reduced, that the "
        "start's nodes and points give",
    ),
    (r"no outcome", "the outcome must be closed exactly where upper less lower is at most the gap; it is {apart}"),
)
CODES = {
    5: "the words are no command, or an option or its value is none of the command's; ./osposg --help lists them",
    6: "standard input could not be read",
    7: "standard output could not be written, so what is there is not the whole text",
    8: "there was not enough memory",
    9: "the input has more than 2^26 bytes, which is the most that is read",
    11: "the words are not UTF-8, or the system did not give them",
}


class Stopped(BaseException):
    """A signal that ends this process; no handler of faults takes it."""


def stop(number, _):
    raise Stopped(number)


def say(text, end="\n"):
    """Writes to the terminal; one that is gone changes nothing."""
    try:
        os.write(2, (text + end).encode(sys.stderr.encoding or "ascii", "backslashreplace"))
    except OSError:
        pass


def behind():
    """Whether this is a job in the background, where notes would disturb who works in front of it."""
    try:
        return os.tcgetpgrp(2) != os.getpgrp()
    except OSError:
        return False


class Note:
    """A line that the program still runs, renewed in place."""

    def __init__(self, command):
        self.command, self.begin, self.length = command, time.monotonic(), 0

    def renew(self):
        if behind():
            return
        seconds = int(time.monotonic() - self.begin)
        long = f"{seconds // 60} min {seconds % 60} s" if seconds >= 60 else f"{seconds} s"
        text = f"osposg: {self.command} has been running for {long}"
        say("\r" + text.ljust(self.length), end="")
        self.length = max(len(text), self.length)

    def erase(self):
        if self.length:
            say("\r" + " " * self.length + "\r", end="")
            self.length = 0


def write_whole(descriptor, piece):
    while piece:
        piece = piece[os.write(descriptor, piece) :]


def put(file, piece):
    """The file with the piece behind it; one in memory with the same bytes where the disk has no room."""
    size = file.tell()
    try:
        write_whole(file.fileno(), piece)
        return file
    except OSError:
        wider = open(os.memfd_create("input"), "w+b", buffering=0)
        file.seek(0)
        write_whole(wider.fileno(), file.read(size) + piece)
        return wider


def copied():
    """A copy of standard input and where it begins. Where that cannot be read, a descriptor that cannot be read either."""
    import tempfile

    try:
        file = tempfile.TemporaryFile(buffering=0)
    except OSError:
        return 0, None
    left = MOST
    while left:
        try:
            piece = os.read(0, min(left, 1 << 20))
        except OSError:
            return os.open("/", os.O_RDONLY), None
        if not piece:
            break
        left -= len(piece)
        file = put(file, piece)
    file.seek(0)
    return os.dup(file.fileno()), 0


def reads(program, words):
    """Whether the program reads an input with these words: only then it finds that a directory cannot be read."""
    if not words or words[0] in READ_NOTHING:
        return False
    nowhere = os.open("/", os.O_RDONLY)
    done = subprocess.run([program, *words], stdin=nowhere, stdout=subprocess.DEVNULL, check=False)
    os.close(nowhere)
    return done.returncode == UNREADABLE


def kept(program, words):
    """The descriptor that the program reads, and where its input begins; None where it cannot be read again."""
    if stat.S_ISREG(os.fstat(0).st_mode):
        return 0, os.lseek(0, 0, os.SEEK_CUR)
    return copied() if reads(program, words) else (0, None)


def carry(child, note):
    """Hands on what the program writes. Answers the front of it, and whether all was taken."""
    front = b""
    while True:
        if not select.select([child.stdout], [], [], PAUSE)[0]:
            note.renew()
            continue
        piece = os.read(child.stdout.fileno(), 1 << 16)
        note.erase()
        if not piece:
            return front, True
        front += piece[: FRONT - len(front)]
        try:
            write_whole(1, piece)
        except OSError:
            child.stdout.close()
            return front, False


def run(program, words, descriptor):
    """Runs the program. Answers its exit code and the front of its text."""
    note = Note(words[0] if words else "")
    child = subprocess.Popen([program, *words], stdin=descriptor, stdout=subprocess.PIPE, bufsize=0)
    try:
        front, taken = carry(child, note)
        code = child.wait()
    except Stopped as stopped:
        for number in SIGNALS:
            signal.signal(number, signal.SIG_DFL)
        note.erase()
        child.send_signal(stopped.args[0])
        child.wait()
        raise
    # A fault of writing takes the place of any answer, as it does in the program.
    return (code if taken else UNWRITABLE), front.decode("ascii", "replace")


def words_of(line):
    """The words of a line of a game, which may have a comment."""
    return line.split(b"#")[0].split()


def pass_game(lines):
    """Reads on behind the end line of a game. Answers how many lines it has."""
    for number, line in enumerate(lines, 1):
        if b"end" in line and words_of(line) == [b"end"]:
            return number
    return 0


def shown(line):
    """A line with nothing that a terminal would not print, cut to what fits."""
    text = line[: 4 * SHOWN + 4].decode("utf-8", "backslashreplace")
    plain = "".join(it if it.isprintable() else it.encode("unicode_escape").decode() for it in text[: SHOWN + 1])
    return (plain if len(plain) <= SHOWN else plain[:SHOWN] + " ..") or "(empty)"


def first_word(line):
    return words_of(line)[0].decode("ascii", "replace") if words_of(line) else ""


def find_line(lines, text, number):
    """How many lines stand before the text, the last line with words before the wanted one, and that one."""
    before, skipped = b"", 0
    if text == "certificate":
        skipped = pass_game(lines)
    for line in itertools.islice(lines, number - 1):
        if skipped or words_of(line):
            before = line
    return skipped, before, next(lines, b"")


def meaning(text, kind, before, line):
    """What a kind means for a line that follows another one."""
    kinds, due, limits = TEXTS[text]
    word = first_word(line)
    if text == "certificate" and kind == 7 and word == "node" and first_word(before) == "over":
        return "the weights of the start points have a common divisor, or one node and one point start, as in version 1 alone"
    said = kinds[kind]
    if isinstance(said, dict):
        said = said.get(word, "; or: ".join(dict.fromkeys(said.values())))
    ours = "docs/FORMATS.md"
    return said.format(due=due.get(first_word(before), ours), limit=limits.get(word, ours))


def explain_refusal(text, number, kind, lines):
    skipped, before, line = find_line(lines, text, number)
    say(f"osposg: kind {kind}: {meaning(text, kind, before, line)}")
    where = f"line {number} of the {text}" + (f" (line {skipped + number} of the input)" if skipped else "")
    if line.endswith(b"\n"):
        say(f"osposg: {where}: {shown(line[:-1])}")
    elif line:
        say(f"osposg: {where}, which no line feed ends: {shown(line)}")
    elif text == "certificate" and number == 1:
        say("osposg: nothing follows the game; this command reads both: cat GAME CERTIFICATE | ./osposg ..")
    else:
        say(f"osposg: {where} is not there: the input ends before it")


def find_member(lines, member):
    """The number of a node's or point's line in the certificate, counted from its first."""
    pass_game(lines)
    wanted = member.encode() + b"\n"
    return next((number for number, line in enumerate(lines, 1) if line == wanted), None)


def explain_place(place, lines):
    """The first place that fails, in words, and where the node or point stands."""
    for form, said in PLACES:
        found = re.fullmatch(form, place)
        if not found:
            continue
        apart = ""
        if "{apart}" in said:
            pass_game(lines)
            apart = difference(b"".join(itertools.islice(lines, 5)).decode("ascii"))
        say("osposg: " + said.format(*found.groups(), apart=apart))
        member = re.match(r"no (node|corner|split|value) (\d+)", place)
        if member:
            name = f"{'node' if member[1] == 'node' else 'point'} {member[2]}"
            say(f"osposg: {name} begins at line {find_member(lines, name)} of the certificate")


def difference(certificate):
    """Upper less lower of a certificate, in units of reward, rounded up to six places."""
    said = dict(line.split(" ", 1) for line in certificate.splitlines()[:5])
    (low, under), (high, below) = (map(int, said[name].split("/")) for name in ("lower", "upper"))
    millionths = -((low * below - high * under) * 10**6 // (under * below))
    return f"{'-' * (millionths < 0)}{abs(millionths) // 10**6}.{abs(millionths) % 10**6:06}"


def explain_bounds(command, certificate):
    said = dict(line.split(" ", 1) for line in certificate.splitlines()[:5])
    apart = f"upper less lower is {difference(certificate)} in units of reward"
    if said["outcome"] == "closed":
        say(f"osposg: closed: {apart}, within the tolerance of {said['gap']}")
        return
    more = "more trials may help (--trials N, at most 10000), and ./osposg close on game and certificate often does"
    if command == "close":
        more = "close of what it wrote, or more rounds (--rounds N, at most 10000), may help"
    elif said["outcome"] == "full":
        more = "1024 nodes or points are there, so more trials change nothing; ./osposg close on game and certificate may help"
    say(f"osposg: open: {apart}, above the tolerance of {said['gap']}; {more}")


def explain(words, code, front, lines):
    """Says what an answer means. The lines are those of the input, None where it was not kept."""
    refused = re.fullmatch(r"(game|certificate) refused: line (\d+) kind (\d+)\n", front)
    if code in (3, 4) and refused and lines:
        explain_refusal(refused[1], int(refused[2]), int(refused[3]), lines)
    elif code == 1 and lines:
        explain_place(front.strip(), lines)
    elif code in (0, 2) and words[:1] in (["solve"], ["close"]):
        explain_bounds(words[0], front)
    elif code in CODES and words and words[0] != "--help":
        say(f"osposg: {CODES[code]}")


def explain_input(words, code, front, descriptor, begin):
    """As `explain`, over the input from where it begins. It is left at the place where the program left it."""
    if begin is None:
        explain(words, code, front, None)
        return
    place = os.lseek(descriptor, 0, os.SEEK_CUR)
    os.lseek(descriptor, begin, os.SEEK_SET)
    try:
        with open(descriptor, "rb", closefd=False) as lines:
            explain(words, code, front, lines)
    finally:
        os.lseek(descriptor, place, os.SEEK_SET)


def die(number):
    """Ends this process by a signal, as the program ended."""
    resource.setrlimit(resource.RLIMIT_CORE, (0, 0))
    if number != signal.SIGKILL:
        signal.signal(number, signal.SIG_DFL)
    os.kill(os.getpid(), number)


def main():
    program, *words = sys.argv[1:]
    try:
        os.fstat(0), os.fstat(1)
    except OSError:
        os.execv(program, [program, *words])
    for number in SIGNALS:
        if signal.getsignal(number) != signal.SIG_IGN:
            signal.signal(number, stop)
    try:
        descriptor, begin = kept(program, words)
        code, front = run(program, words, descriptor)
        try:
            explain_input(words, code, front, descriptor, begin)
        except Exception:
            # No fault of an explanation may take the place of the program's exit code.
            pass
        if code < 0:
            die(-code)
    except Stopped as stopped:
        die(stopped.args[0])
    sys.exit(code)


if __name__ == "__main__":
    main()
