#!/usr/bin/env python3
"""Four programs at once on the pseudo-terminals of cimbalotyd: clients.py DIRECTORY COUNT

Each writes COUNT command lines on its own and reads each answer, which has to be the modem's own: its number follows from
the command and the connection. A command that is answered by ERROR, since the line hung up, is written again. One more
reads the unsolicited lines. Prints how many were answered, how many by ERROR, and how many lines came.
"""
import os
import select
import sys
import threading
import time

CLIENTS = 4


def number_of(x, dlci):
    """What the modem answers to AT+N=x on a connection."""
    return (x * 7919 + dlci * 104729 + 12345) % 1000003


class Terminal:
    def __init__(self, path):
        self.fd = os.open(path, os.O_RDWR | os.O_NOCTTY)
        self.text = b""

    def line(self, seconds):
        """The next line that isn't empty; None where none comes in time."""
        until = time.monotonic() + seconds
        while True:
            while b"\n" in self.text:
                line, self.text = self.text.split(b"\n", 1)
                if line.strip():
                    return line.strip().decode()
            left = until - time.monotonic()
            if left <= 0 or not select.select([self.fd], [], [], left)[0]:
                return None
            self.text += os.read(self.fd, 4096)

    def ask(self, command):
        os.write(self.fd, command.encode() + b"\r")
        lines = []
        while True:
            line = self.line(30)
            if line is None:
                return lines + ["nothing"]
            lines.append(line)
            if line in ("OK", "ERROR") or line.startswith("+CME ERROR:"):
                return lines


def work(directory, dlci, count, sums):
    terminal = Terminal(f"{directory}/at{dlci}")
    answered = errors = 0
    for i in range(count):
        x = i * CLIENTS + dlci
        while True:
            lines = terminal.ask(f"AT+N={x}")
            if lines == [f"+N: {number_of(x, dlci)}", "OK"]:
                answered += 1
                break
            if lines != ["ERROR"]:
                print(f"at{dlci}: AT+N={x} is answered by {lines}")
                os._exit(1)
            errors += 1
            time.sleep(0.05)
    if terminal.ask("AT+" + "X" * 254) != ["ERROR"] or terminal.ask("hello") != ["ERROR"]:
        print(f"at{dlci}: what is no command isn't answered by ERROR")
        os._exit(1)
    sums[dlci] = answered, errors


def listen(directory, lines, is_over):
    terminal = Terminal(f"{directory}/events")
    while not is_over.is_set():
        line = terminal.line(0.5)
        if line:
            lines.append(line)


def main():
    directory, count = sys.argv[1], int(sys.argv[2])
    sums, lines, is_over = {}, [], threading.Event()
    listener = threading.Thread(target=listen, args=(directory, lines, is_over))
    listener.start()
    workers = [threading.Thread(target=work, args=(directory, d, count, sums)) for d in range(1, CLIENTS + 1)]
    for it in workers:
        it.start()
    for it in workers:
        it.join()
    is_over.set()
    listener.join()
    if len(sums) != CLIENTS or set(lines) - {"RING"}:
        sys.exit(f"clients: wrong: {sums} {set(lines)}")
    print(f"{sum(s[0] for s in sums.values())} answered, {sum(s[1] for s in sums.values())} by ERROR before, {len(lines)} lines")


main()
