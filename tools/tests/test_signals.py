#!/usr/bin/env python3
"""Tests of how a run ends from outside: by a signal, by Ctrl-C at a terminal, or by a reader that goes away; and of
the line that says on a terminal how far a run is.

    python3 tools/tests/test_signals.py [PROGRAM]

PROGRAM is the one that the variable HARD_DISKS names, or the built one, where none is named."""
import os
import pty
import random
import re
import select
import signal
import subprocess
import sys
import tempfile
import termios
import time
import unittest
from unittest import mock

from places import program_of_words

PROGRAM = ""  # which one is tested is found at the end
# Runs for a second or more, and writes many megabytes from its beginning on.
WORDS = ["--mode", "load", "--disks", "30000"]
# What a pipe holds is less, so a run that wrote so much into a file, or has a reader that read so much and no
# more, is in the midst of its report.
SOME = 200_000
# How long, in seconds, a program may take to end that ends at once, on a busy machine.
SOON = 5
# How long a reader lets the program wait.
LATE = 0.5
# Writes less than is gathered before it is written.
FEW = ["--mode", "load", "--disks", "36"]
# In mode `plain` each event of so many disks takes some milliseconds, and the first 65,536 bytes many seconds.
SLOW_DISKS = 1_600
DONE, SCENE_REFUSED, WRITE_FAULT = 0, 3, 7
# Runs for some seconds, by short bursts that take most of the time, and writes little.
LONG = "--mode load --disks 60000 --format summary --regions 16 --workers 1 --turns 4 --steps 8".split()
# Runs for much longer, as no burst does more than one event; whoever starts it ends it.
LONGER = "--mode load --disks 65536 --format summary --regions 16 --workers 1 --turns 1 --steps 1".split()
LINE = re.compile(r"tick [0-9]+ of 1000 \(")
# How long, in seconds, such a run may take.
AGES = 100
COLUMNS = 20
# How many seconds later than beside no terminal a run ends at most; and how often both are timed, on a busy machine.
LATER = 0.1
TIMES = 10


def start(words=WORDS, stdin=subprocess.DEVNULL, **streams):
    return subprocess.Popen([PROGRAM, *words], stdin=stdin, **streams)


def slow_scene():
    """The text of a scene that mode `plain` is slow with."""
    draw = random.Random(1)
    side = int(SLOW_DISKS**0.5)
    rows = [
        [1024 + 2048 * (i % side), 1024 + 2048 * (i // side), draw.randint(-64, 64), draw.randint(-64, 64)]
        for i in range(side * side)
    ]
    limits = "speed_limit = 512\nround_limit = 64\nend = 1000\n"
    return f"width = {2048 * side}\nheight = {2048 * side}\ndiameter = 1024\n{limits}disks = {rows}\n".encode()


def ended(child):
    """The status of a program that ends soon; it is killed, and the test fails, where it doesn't."""
    try:
        return child.wait(SOON)
    except subprocess.TimeoutExpired:
        child.kill()
        child.wait()
        raise AssertionError(f"it hadn't ended {SOON} seconds later") from None


class Signals(unittest.TestCase):
    @classmethod
    def setUpClass(cls):
        cls.report = subprocess.run([PROGRAM, *WORDS], stdin=subprocess.DEVNULL, capture_output=True, check=True).stdout

    def assert_begun(self, text):
        self.assertGreaterEqual(len(text), SOME)
        self.assert_front(text)

    def assert_front(self, text):
        self.assertLess(len(text), len(self.report))
        self.assertTrue(self.report.startswith(text), "it is no prefix of the report")

    def stops_a_pipe(self, number):
        with start(stdout=subprocess.PIPE) as child:
            text = child.stdout.read(SOME)
            child.send_signal(number)
            self.assertEqual(ended(child), -number)
            # What it wrote before stays in the pipe.
            self.assert_begun(text + child.stdout.read())

    def test_a_request_to_end_leaves_what_a_pipe_got(self):
        self.stops_a_pipe(signal.SIGTERM)

    def test_an_interrupt_leaves_what_a_pipe_got(self):
        self.stops_a_pipe(signal.SIGINT)

    def test_a_request_to_end_leaves_what_a_file_got(self):
        with tempfile.TemporaryFile() as file:
            with start(stdout=file) as child:
                while os.fstat(file.fileno()).st_size < SOME and child.poll() is None:
                    time.sleep(0.001)
                child.send_signal(signal.SIGTERM)
                self.assertEqual(ended(child), -signal.SIGTERM)
            file.seek(0)
            self.assert_begun(file.read())

    def test_a_reader_that_goes_away_is_a_write_fault(self):
        with start(stdout=subprocess.PIPE) as child:
            text = child.stdout.read(SOME)
            child.stdout.close()
            self.assertEqual(ended(child), WRITE_FAULT)
            self.assert_begun(text)

    def test_a_reader_that_wants_one_line_has_it_and_ends_the_run(self):
        with start(stdout=subprocess.PIPE) as child:
            line = child.stdout.readline()
            child.stdout.close()
            self.assertEqual(ended(child), WRITE_FAULT)
            self.assert_front(line)

    def test_a_reader_that_never_reads_is_a_write_fault(self):
        for words in (WORDS, FEW):
            with self.subTest(words), start(words, stdout=subprocess.PIPE) as child:
                child.stdout.close()
                self.assertEqual(ended(child), WRITE_FAULT)

    def test_a_reader_that_goes_away_afterwards_makes_no_difference(self):
        with start(FEW, stdout=subprocess.PIPE) as child:
            text = child.stdout.read()
            child.stdout.close()
            self.assertEqual(ended(child), DONE)
            self.assertTrue(text.endswith(b"\n"))

    def test_a_reader_that_comes_late_gets_the_whole_report(self):
        with start(stdout=subprocess.PIPE) as child:
            time.sleep(LATE)
            self.assertEqual(child.stdout.read(), self.report)
            self.assertEqual(ended(child), DONE)

    def test_a_reader_has_lines_while_the_run_goes_on(self):
        with tempfile.TemporaryFile() as scene:
            scene.write(slow_scene())
            scene.seek(0)
            with start(["--mode", "plain"], stdin=scene, stdout=subprocess.PIPE) as child:
                begin = time.monotonic()
                line = child.stdout.readline()
                waited = time.monotonic() - begin
                child.kill()
        self.assertRegex(line, rb"^[0-9]+ 0 (pair|wall) .*\n$")
        self.assertLess(waited, 4 * SOON)

    def test_two_interrupts_at_a_terminal_end_it(self):
        with tempfile.TemporaryFile() as file:
            pid, terminal = pty.fork()
            if pid == 0:
                os.dup2(file.fileno(), 1)
                os.execv(PROGRAM, [PROGRAM, *WORDS])
            try:
                while os.fstat(file.fileno()).st_size < SOME:
                    time.sleep(0.001)
                os.write(terminal, b"\x03")
                os.write(terminal, b"\x03")
                self.assertEqual(os.waitstatus_to_exitcode(self.status_of(pid)), -signal.SIGINT)
            finally:
                os.close(terminal)
            file.seek(0)
            self.assert_begun(file.read())

    def status_of(self, pid):
        end = time.monotonic() + SOON
        while time.monotonic() < end:
            found, status = os.waitpid(pid, os.WNOHANG)
            if found:
                return status
            time.sleep(0.01)
        os.kill(pid, signal.SIGKILL)
        os.waitpid(pid, 0)
        raise AssertionError(f"it hadn't ended {SOON} seconds later")


class Screen:
    """What a terminal shows of what is written to it: no more of the control sequences than the program uses."""

    def __init__(self, columns):
        self.columns, self.wraps = columns, True
        self.rows, self.row, self.column = [""], 0, 0

    def take(self, text):
        for piece in re.findall("\x1b\\[[?0-9]*[A-Za-z]|.", text, re.DOTALL):
            self.take_piece(piece)

    def take_piece(self, piece):
        if piece == "\r":
            self.column = 0
        elif piece == "\n":
            self.move_down()
        elif piece == "\x1b[A":
            self.row = max(self.row - 1, 0)
        elif piece == "\x1b[K":
            self.rows[self.row] = self.rows[self.row][: self.column]
        elif piece in ("\x1b[?7l", "\x1b[?7h"):
            self.wraps = piece.endswith("h")
        elif piece.startswith("\x1b"):
            raise AssertionError(f"it writes {piece!r}")
        else:
            self.put(piece)

    def move_down(self):
        self.row += 1
        if self.row == len(self.rows):
            self.rows.append("")

    def put(self, letter):
        if self.column == self.columns:
            if self.wraps:
                self.move_down()
                self.column = 0
            else:
                self.column -= 1
        row = self.rows[self.row].ljust(self.column)
        self.rows[self.row] = row[: self.column] + letter + row[self.column + 1 :]
        self.column += 1

    def shown(self):
        return [row for row in self.rows if row]


def fork_at_terminal(words, is_behind=False, output=None):
    """Starts the program at a terminal of its own, where its errors go: in the background, and where whoever writes from
    there is stopped, if it is to be behind. Its output goes nowhere, or where it is told."""
    pid, terminal = pty.fork()
    if pid == 0:
        nowhere = os.open(os.devnull, os.O_RDWR)
        os.dup2(nowhere, 0)
        os.dup2(nowhere if output is None else output, 1)
        if is_behind:
            modes = termios.tcgetattr(2)
            modes[3] |= termios.TOSTOP
            termios.tcsetattr(2, termios.TCSANOW, modes)
            # The one that stays leads the foreground group, and ends with the status of the one behind.
            if behind := os.fork():
                _, status = os.waitpid(behind, os.WUNTRACED)
                os._exit(os.WEXITSTATUS(status) if os.WIFEXITED(status) else 128)
            os.setpgid(0, 0)
        os.execv(PROGRAM, [PROGRAM, *words])
    termios.tcsetwinsize(terminal, (8, COLUMNS))
    return pid, terminal


def read_for(terminal, seconds):
    """What is written to a terminal in so many seconds, in pieces, or until nobody is there any more."""
    end = time.monotonic() + seconds
    while (left := end - time.monotonic()) > 0:
        if select.select([terminal], [], [], left)[0]:
            try:
                yield os.read(terminal, 4096).decode()
            except OSError:
                return


class Lines(unittest.TestCase):
    def begin(self, words, **how):
        pid, self.terminal = fork_at_terminal(words, **how)
        self.screen = Screen(COLUMNS)
        return pid

    def end(self, pid):
        os.close(self.terminal)
        _, status = os.waitpid(pid, 0)
        return os.waitstatus_to_exitcode(status)

    def show_for(self, seconds, is_enough=lambda: False):
        for text in read_for(self.terminal, seconds):
            self.screen.take(text)
            self.assertLessEqual(len(self.screen.shown()), 1)
            if is_enough():
                return

    def show_some_lines(self):
        """Until the line has been written anew some times: however fast the machine is, the run isn't over then."""
        lines = set()

        def is_enough():
            lines.update(row for row in self.screen.shown() if LINE.match(row))
            return len(lines) == 3

        self.show_for(AGES, is_enough)

    def test_the_line_is_one_row_of_a_narrow_terminal(self):
        pid = self.begin(LONGER)
        self.show_some_lines()
        os.kill(pid, signal.SIGKILL)
        self.end(pid)
        self.assertRegex(self.screen.rows[0], LINE)

    def test_it_is_gone_once_the_run_is_over(self):
        pid = self.begin(LONG)
        self.show_for(AGES)
        self.assertEqual(self.end(pid), DONE)
        self.assertEqual((self.screen.shown(), self.screen.row, self.screen.column), ([], 0, 0))

    def test_a_run_too_short_for_a_line_leaves_the_row_above_alone(self):
        pid = self.begin(FEW)
        self.assertEqual(("".join(read_for(self.terminal, AGES)), self.end(pid)), ("", DONE))

    def test_a_run_whose_end_is_never_known_ends_too(self):
        pid = self.begin(["--mode", "run"])
        self.assertEqual(("".join(read_for(self.terminal, SOON)), self.end(pid)), ("", SCENE_REFUSED))

    def test_a_run_ends_as_soon_as_beside_no_terminal(self):
        beside_none = min(self.lasts(FEW, is_at_terminal=False) for _ in range(TIMES))
        self.assertLess(min(self.lasts(FEW, is_at_terminal=True) for _ in range(TIMES)), beside_none + LATER)

    def lasts(self, words, is_at_terminal):
        """How many seconds the program runs."""
        begin = time.monotonic()
        if is_at_terminal:
            pid = self.begin(words)
            list(read_for(self.terminal, AGES))
            self.end(pid)
        else:
            subprocess.run([PROGRAM, *words], stdin=subprocess.DEVNULL, capture_output=True, check=True)
        return time.monotonic() - begin

    def test_whoever_writes_after_a_request_to_end_begins_a_row(self):
        for number in (signal.SIGINT, signal.SIGTERM, signal.SIGHUP):
            with self.subTest(number):
                pid = self.begin(LONGER)
                self.show_some_lines()
                os.kill(pid, number)
                self.show_for(SOON)
                self.assertEqual(self.end(pid), -number)
                self.assertEqual((self.screen.row, self.screen.column), (1, 0))

    def test_it_is_gone_at_the_end_of_a_run_into_a_file(self):
        with tempfile.TemporaryFile() as file:
            pid = self.begin(LONG, output=file.fileno())
            self.show_for(AGES)
            self.assertEqual((self.end(pid), self.screen.shown()), (DONE, []))
            self.assertGreater(os.fstat(file.fileno()).st_size, 0)

    def test_nothing_is_shown_beside_a_pipe_unless_it_is_asked_for(self):
        for value in (None, "1", "", os.fsdecode(b"\xff")):
            is_asked = value is not None
            reader, writer = os.pipe()
            with self.subTest(value), mock.patch.dict(os.environ, {"HARD_DISKS_LINE": value} if is_asked else {}):
                pid = self.begin(LONG, output=writer)
                os.close(writer)
                text = "".join(read_for(self.terminal, AGES))
                self.assertEqual(self.end(pid), DONE)
                self.assertEqual("tick " in text, is_asked)
            os.close(reader)

    def test_nothing_is_shown_from_the_background(self):
        pid = self.begin(LONG, is_behind=True)
        self.assertEqual("".join(read_for(self.terminal, AGES)), "")
        self.assertEqual(self.end(pid), DONE)


def main():
    global PROGRAM
    PROGRAM = program_of_words()
    # (a shell that starts this beside other work has it, and all that it starts, ignore interrupts)
    signal.signal(signal.SIGINT, signal.default_int_handler)
    unittest.main()


if __name__ == "__main__":
    main()
