"""Runs the program on a terminal, where it asks for the password without echo and shows progress."""

import hashlib
import re
import shlex
import signal

from tools.generate import header
from tools.tests.known import HASHLIB
from tools.tests.runs import run
from tools.tests.terminal import session

VERSION = f"scrypt_tool {header.VERSION}"
KEY, HASH, VERIFY = "key 4 1 1 16 ''", "hash phc 4 1 1 4e61436c", f"verify {HASHLIB}"
ONCE, TWICE = ["Password: "], ["Password: ", "The same again: "]

# The signals that end a program by default, but SIGKILL; the program ignores SIGPIPE.
ENDING = sorted(signal.valid_signals() - {signal.SIGKILL, signal.SIGSTOP, signal.SIGTSTP, signal.SIGTTIN, signal.SIGTTOU,
                                          signal.SIGCHLD, signal.SIGCONT, signal.SIGURG, signal.SIGWINCH, signal.SIGPIPE})

# The arguments, the input typed at each prompt or the signal, the status (below 0 for a signal), the
# lines on the terminal, and the reason.
ROWS = [
    (KEY, ["password\n"], 0, [*ONCE, "d33c6ec1818daaf728f55afadfeaa558"], "a key is asked for once"),
    (HASH, ["password\n"] * 2, 0, [*TWICE, HASHLIB], "a hash twice"),
    (HASH, ["password\n", "passwort\n"], 4, [*TWICE, "The passwords differ."], "two that differ"),
    (HASH, ["password\n", "\x04"], 4, [*TWICE, "input failed"], "no second one"),
    (f"--max-work=192 {VERIFY}", ["password\n"], 0, [*ONCE, "ok"], "after an option"),
    (VERIFY, ["\n"], 4, [*ONCE, "input failed"], "an empty one, as at the end of the input"),
    (VERIFY, ["pass\x7f\x7fssword\n"], 0, [*ONCE, "ok"], "one with corrected letters"),
    (f"rehash phc 4 1 1 32 00 {HASHLIB}", ["password\n"], 0, [*ONCE, "ok"], "a login asks once"),
    (VERIFY, ["\x04"], 4, [*ONCE, "input failed"], "none at all"),
    (VERIFY, ["pass\x03"], -2, ONCE, "Ctrl-C ends it"),
    (HASH, ["password\n", "pass\x03"], -2, TWICE, "Ctrl-C at the second question"),
    (VERIFY, ["pass\x1a", "password\n"], 0, [*ONCE, *ONCE, "ok"], "after Ctrl-Z it asks again"),
    (HASH, ["password\n", "pass\x1a", "password\n"], 0, [*TWICE, TWICE[1], HASHLIB], "Ctrl-Z at the second one"),
    (VERIFY, ["x" * 4094 + "\n"], 1, [*ONCE, "no"], "the longest one"),
    (VERIFY, ["x" * 4096 + "\n"], 4, [*ONCE, "The password may have been cut.", "input failed"], "one that Linux truncates"),
    (KEY, ["x" * 2048 + "\x04" + "x" * 2048 + "\n"], 4, [*ONCE, "The password may have been cut.", "input failed"],
     "one that is longer in two parts"),
    (KEY, ["pass\x04word\n"], 0, [*ONCE, "d33c6ec1818daaf728f55afadfeaa558"], "one in two parts"),
    (KEY, ["pass\0word\n"], 0, [*ONCE, hashlib.scrypt(b"pass\0word", salt=b"", n=16, r=1, p=1, dklen=16).hex()],
     "a zero byte, by Ctrl-Space, belongs to it"),
    (VERIFY, [(signal.SIGWINCH, b"password\n")], 0, [*ONCE, "ok"], "a window of another size: no second question"),
    *((words, [*typed, it], -it, questions, f"signal {it}: echo is on again before it ends the program")
      for it in ENDING for words, typed, questions in [(VERIFY, [], ONCE), (HASH, ["password\n"], TWICE)]),
    ("verify $8$", [], 2, ["hash refused: EncodingInvalid"], "an error before the input: no prompt"),
    ("--version", [], 0, [VERSION], "a command without a password: no prompt"),
    (f"--raw {KEY}", [], 2, ["--raw does not write to a terminal"], "raw bytes for a terminal: no prompt"),
]

# Commands of a shell with jobs, what is typed, the lines but those of the shell, and the reason. The second line is of
# stty, while the program is stopped.
ECHO = 'stty -a | grep -oE -- "-?echo "; fg > /dev/null'
JOBS = [
    (f'"$@"; {ECHO}', [b"pass\x1a", b"password\n"], [*ONCE, "echo ", *ONCE, "ok"], "Ctrl-Z, and in the foreground again"),
    (f'"$@" & until grep -q "^State:.T" /proc/$!/status; do :; done; {ECHO}', [b"password\n"], ["echo ", *ONCE, "ok"],
     "in the background it stops before it asks"),
]

# The bar of --progress until it is removed, or until Ctrl-C is typed.
BAR = re.compile(rb"(?:\r\[[# ]{40}\] {1,3}\d+ %)+(?:\r {48,}\r|\^C)")
TYPED, PIPED = '"$@"', 'printf pass | "$@"'
SHORT, WHOLE = "key 10 8 1 32 4e61436c", list(range(101))

# The command of the shell, the arguments, the percentages that are shown, and the reason. All else is as without --progress.
BARS = [
    (TYPED, "key 16 8 2 32 4e61436c", WHOLE, "the password is typed"),
    (PIPED, "key 9 1 500 32 4e61436c", WHOLE, "more groups of chunks than percentages"),
    (PIPED, "key 0 1 1 100 4e61436c", [0, 50, 100], "two mixes"),
    (f"ulimit -v 80000; {PIPED}", "key 15 8 4 32 00", WHOLE, "memory for one table of four"),
    (f"ulimit -v 60000; {PIPED}", "key 17 8 1 32 00", [], "too little memory"),
    (f"{PIPED} 2>&-", SHORT, [], "no standard error"),
]


def prompts(program):
    """Each row. The echo is off at each prompt, and then on again."""
    for words, typed, status, lines, reason in ROWS:
        answers = [it.encode() if isinstance(it, str) else it for it in typed]
        ended, shown, echo = session([program, *shlex.split(words)], answers)
        written = shown.decode().removesuffix("\r\n").split("\r\n")
        yield f"on a terminal, {words!r} ({reason})", (ended, written, echo), (status, lines, [False] * len(typed) + [True])


def jobs(program):
    for shell, typed, lines, reason in JOBS:
        ended, shown, echo = session(["bash", "-mc", shell, "bash", program, *shlex.split(VERIFY)], typed)
        written = [it for it in shown.decode().split("\r\n") if it and it[0] != "["]
        yield f"{shell} ({reason})", (ended, written, echo), (0, lines, [False] * len(typed) + [True])


def shown_by(words, answers):
    """How a session ends, without the bar, and the percentages in it."""
    status, shown, echo = session(words, answers)
    drawn = re.findall(rb"(\d+) %", b"".join(BAR.findall(shown)))
    return (status, BAR.sub(b"", shown), echo), [int(it) for it in drawn]


def bars(program):
    """Each row with and without --progress, a run without a terminal, and Ctrl-C."""
    for shell, words, percentages, reason in BARS:
        with_bar, without = (
            shown_by(["sh", "-c", shell, "sh", program, *option, *shlex.split(words)], [b"pass\n"] if shell == TYPED else [])
            for option in (["--progress"], [])
        )
        yield f"--progress {words} by {shell} ({reason})", with_bar, (without[0], percentages)
    ran = [run([program, *shlex.split(words)], b"pass") for words in (f"--progress {SHORT}", SHORT)]
    yield "no bar if the standard error is no terminal", *ran
    ended, _ = shown_by([program, *"--progress key 18 8 16 32 00".split()], [b"pass\n", b"\x03"])
    yield "Ctrl-C at the bar", ended, (-signal.SIGINT, b"Password: \r\n", [False, True, True])


def cases(words):
    if len(words) == 1:  # not in an emulator
        yield from prompts(*words)
        yield from jobs(*words)
        yield from bars(*words)
