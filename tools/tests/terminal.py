"""A program that asks for a password on its terminal."""

import os
import pty
import signal
import termios


def has_echo(terminal):
    """Whether the echo is on."""
    return bool(termios.tcgetattr(terminal)[3] & termios.ECHO)


def send(pid, terminal, answer):
    """Types an answer, sends a signal, or does one after the other."""
    for part in answer if isinstance(answer, tuple) else [answer]:
        if isinstance(part, int):
            os.kill(pid, part)
        else:
            os.write(terminal, part)


def read(terminal):
    """The next output, or nothing at its end, which Linux can report before it returns the last output."""
    for _ in range(2):
        try:
            return os.read(terminal, 1024)
        except OSError:
            pass
    return b""


def session(words, answers):
    """Runs a program on a terminal, and types an answer, or sends a signal, after each line that ends in a colon, or a
    bar that ends in a per cent sign.
    Returns its status, what the terminal showed, and whether the echo was on, at each answer and at the end."""
    pid, terminal = pty.fork()
    if pid == 0:
        # Python ignores some signals, and nohup and a shell let a program in the background ignore others.
        for each in signal.valid_signals() - {signal.SIGKILL, signal.SIGSTOP}:
            signal.signal(each, signal.SIG_DFL)
        os.execvp(words[0], words)
    shown, answered, echo = b"", 0, []
    while part := read(terminal):
        shown += part
        if len(echo) < len(answers) and shown[answered:].rstrip().endswith((b":", b"%")):
            answered = len(shown)
            echo.append(has_echo(terminal))
            send(pid, terminal, answers[len(echo) - 1])
    status = os.waitstatus_to_exitcode(os.waitpid(pid, 0)[1])
    echo.append(has_echo(terminal))
    os.close(terminal)
    return status, shown, echo
