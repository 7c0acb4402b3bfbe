#!/usr/bin/env python3
"""Tests of cases/play with a program that is a script: what passes, and what is told where something is otherwise.

The last line is `cases: N passed, M failed`.
"""

import os
import shutil
import signal
import sys
import tempfile
import unittest

sys.dont_write_bytecode = True
sys.path.insert(0, os.path.dirname(os.path.realpath(__file__)))

from player import case, collect, processes  # noqa: E402

# A program that repeats the events of a replay, and serves records as a party: it sends each back.
PROGRAM = r'''#!%s
import socket, sys
words = sys.argv[1:]
if words[:1] == ["replay"]:
    for line in sys.stdin:
        if line.strip() and not line.startswith("#"):
            print("= " + line.strip())
            if line.startswith("client"):
                print("o c0 write ok 1")
    print("calm yes unguessed yes")
elif words[:1] == ["serve"]:
    listener = socket.socket()
    listener.bind(("127.0.0.1", int(words[1])))
    listener.listen()
    print("listening", flush=True)
    for _ in range(int(words[2])):
        connection, _ = listener.accept()
        connection.sendall(connection.recv(1000))
        connection.close()
    print("served " + words[2])
elif words[:1] == ["fail"]:
    print("some words", file=sys.stderr)
    print("error words")
    sys.exit(2)
''' % sys.executable


class Playing(unittest.TestCase):
    """A folder as a repository's top, with cases that a test writes into it."""

    def setUp(self) -> None:
        self.top = tempfile.mkdtemp(prefix="pnfs-osd-play-")
        self.addCleanup(shutil.rmtree, self.top)
        self.addCleanup(processes.end_all)
        self.program = os.path.join(self.top, "program")
        self.write("program", PROGRAM)
        os.chmod(self.program, 0o755)
        os.mkdir(os.path.join(self.top, "scenarios"))

    def write(self, name: str, text: str) -> None:
        """Writes a file."""
        path = os.path.join(self.top, name)
        os.makedirs(os.path.dirname(path), exist_ok=True)
        with open(path, "w", encoding="utf-8") as file:
            file.write(text)

    def fault(self) -> str:
        """What is told of the one case that there is; nothing where it passes."""
        (found,) = collect.cases(self.top)
        try:
            found.play(self.program)
        except case.Fault as fault:
            return str(fault)
        return ""

    def rows(self, text: str) -> str:
        """The same of a case of these rows."""
        self.write("cases/t/one.rows", "# One.\n" + text)
        return self.fault()


class Scenarios(Playing):
    """Scenarios and what stands beside them."""

    def outcome(self, ending: str, text: str) -> str:
        """What is told of a scenario with that beside it."""
        self.write("cases/t/one.txt", "# It shows this. And that.\nclient c0\nsettle\n")
        self.write("cases/t/one" + ending, text)
        return self.fault()

    def test_transcripts(self) -> None:
        whole = "= client c0\no c0 write ok 1\n= settle\ncalm yes unguessed yes\n"
        self.assertEqual(self.outcome(".transcript", whole), "")
        self.assertIn("line 2 has to be", self.outcome(".transcript", whole.replace("ok 1", "ok 2")))
        self.assertIn("(the end)", self.outcome(".transcript", whole + "more\n"))
        self.assertIn("(the end)", self.outcome(".transcript", whole.replace("calm yes unguessed yes\n", "")))
        self.assertIn("(without a newline)", self.outcome(".transcript", whole[:-1]))

    def test_lines_that_show(self) -> None:
        self.assertEqual(self.outcome(".shows", "o c0 write ok 1\ncalm yes unguessed yes\n"), "")
        self.assertEqual(self.outcome(".shows", "o c0 write ok 1\n= settle\ncalm yes unguessed yes\n"), "")
        self.assertIn("line 2", self.outcome(".shows", "calm yes unguessed yes\n"))
        self.assertIn("doesn't show", self.outcome(".shows", "o c0 write ok 1\ncalm yes unguessed yes\nd 1 taken\n"))

    def test_statuses_and_lacks(self) -> None:
        self.assertEqual(self.outcome(".status", "0\ncalm yes unguessed yes\n"), "")
        self.assertIn("exit status", self.outcome(".status", "3\ncalm yes unguessed yes\n"))
        self.assertIn("last", self.outcome(".status", "0\ncalm no unguessed yes\n"))
        self.write("cases/t/one.lacks", "^o .* ok [0-9]\n")
        self.assertIn("may not have", self.outcome(".status", "0\ncalm yes unguessed yes\n"))

    def test_commands_and_outcomes(self) -> None:
        self.assertEqual(self.outcome(".commands", "o c0 write ok 1\n"), "")
        self.assertIn("line 1 has to be", self.outcome(".commands", "c0 d0 write 0+1 61\no c0 write ok 1\n"))

    def test_titles(self) -> None:
        self.outcome(".status", "0\n")
        self.assertEqual(collect.cases(self.top)[0].title(), "It shows this")


class Rows(Playing):
    """Cases in rows."""

    def test_runs(self) -> None:
        self.assertEqual(self.rows("run: replay\n  < settle\n  > = settle\n  > calm yes unguessed yes\n"), "")
        self.assertEqual(self.rows("run: replay\n  < settle\n  >*\n"), "")
        self.assertEqual(self.rows("run: replay > file\n  < settle\nhas file\n  > = settle\n  > calm yes unguessed yes\n"), "")
        self.assertIn("line 1 has to be", self.rows("run: replay\n  < settle\n  > = stop c0\n  >*\n"))
        self.assertIn("it also says", self.rows("run: replay\n  < settle\n  > = settle\n"))
        self.assertIn("it never says", self.rows("run: replay\n  < settle\n  >*\n  > more\n"))

    def test_statuses_and_errors(self) -> None:
        self.assertEqual(self.rows("run: fail\n  > error words\n  ! some\n  = 2\n"), "")
        self.assertIn("exit status", self.rows("run: fail\n  > error words\n"))
        self.assertIn("it never says", self.rows("run: fail\n  > error words\n  ! other\n  = 2\n"))
        self.assertIn("isn't empty", self.rows("run: fail\n  > error words\n  !!\n  = 2\n"))
        self.assertIn("there is no row", self.rows("jump\n"))

    def test_values(self) -> None:
        begin = "run: replay\n  < x 17\n  >~ = x (?P<n>[0-9]+)\n  >*\n"
        self.assertEqual(self.rows(begin + "run: replay\n  < {n} {3*0a} {none}\n  > = 17 0a0a0a {none}\n  >*\n"), "")
        self.assertIn("= 17", self.rows(begin + "run: replay\n  < 18\n  > = {n}\n  >*\n"))

    def test_parties(self) -> None:
        begin = "limit 20\nstart s: serve {port s} 2\n  > listening\nask s 80000001aa\n  > 80000001aa\n"
        self.assertEqual(self.rows(begin + "ask s bb\n  > bb\nend s\n  > served 2\n"), "")
        self.assertIn("of the answer", self.rows(begin + "ask s bb\n  > cc\n"))
        self.assertEqual(self.rows(begin + "kill s\nend s\n  = SIGKILL\n"), "")
        self.assertIn("doesn't end", self.rows(begin + "limit 1\nend s\n  > served 2\n"))

    def test_commands(self) -> None:
        begin = "limit 20\nstart d0: serve {port d0} 9\n  > listening\n"
        self.assertIn("no reply", self.rows(begin + "command d0 read\n  > read perform 65536 0 0\n"))
        self.assertIn("no field speed", self.rows(begin + "command d0 read speed 3\n"))
        self.assertEqual(self.rows(begin + "sealed c d0 write payload 61\nask d0 {c}\n  >~ .*\n").count("4f534432"), 1)
        self.assertIn("unreadable", self.rows(begin + "message d0 61\n  > answer: LAYOUTGET\n"))

    def test_spoilt_messages(self) -> None:
        begin = "limit 20\nimpostor i x aabb\n"
        self.assertEqual(self.rows(begin + "ask x {2*80000001cc}\n  > {2*80000002aabb}\n"), "")
        self.assertEqual(self.rows(begin + "ask x 80000001cc\n  > 80000002aabb\n"), "")
        self.assertEqual(self.rows(begin + "spoilt x abcd 0=cd 0..2=01\n  > aabb\n"), "")
        self.assertIn("number 1 has to be", self.rows(begin + "spoilt x abcd\n  > aabbcc\n"))
        self.assertIn("could be sent", self.rows(begin + "drip x 0102 0.1\n"))
        self.assertIn("something comes back", self.rows(begin + "drip x 8000000101 0.1\n"))

    def test_strangers(self) -> None:
        begin = "limit 20\nimpostor i x aabb\n"
        self.assertEqual(self.rows(begin + "crowd x 30 80000001cc\n  > 80000002aabb\n"), "")
        self.assertIn("number 1 has to be", self.rows(begin + "crowd x 30 80000001cc\n  > 80000002aabc\n"))
        self.assertIn("this record comes back", self.rows(begin + "noise x 9 1\n"))
        self.assertEqual(self.rows(begin + "noise x 9 1\n  > aabb\n"), "")

    def test_turned_bytes(self) -> None:
        reply = "4f534472000300020000000000010000{8*00}{8*00}{8*00}"
        begin = "limit 20\nimpostor d0 d0 " + reply + "\n"
        self.assertEqual(self.rows(begin + "flipped d0 abcdef\n  > 0..2 checkvalue\n  > 2 checkvalue\n"), "")
        self.assertIn("number 3 has to be", self.rows(begin + "flipped d0 abcdef\n  > 0..2 checkvalue\n  > 2 format\n"))
        self.assertIn("number 3 has to be", self.rows(begin + "flipped d0 abcdef\n  > 0..2 checkvalue\n"))

    def test_replays_in_a_loop(self) -> None:
        begin = "repeated s\n  2 # {1*61}\n  1 settle\n"
        self.assertEqual(self.rows(begin + "has s\n  > # 61\n  > # 61\n  > settle\n"), "")
        self.assertEqual(self.rows(begin + "last s\n  > = settle\n  > calm yes unguessed yes\n"), "")
        self.assertIn("number 1 has to be", self.rows(begin + "last s\n  > = settle c0\n  > calm yes unguessed yes\n"))
        self.assertIn("exit status", self.rows(begin + "last s\n  > calm yes unguessed yes\n  = 7\n"))
        # This program takes each line, and doesn't say that it couldn't write.
        self.assertEqual(self.rows(begin + "prefixes s\n"), "")
        self.assertIn("with room for", self.rows(begin + "fills s\n"))

    def test_impostors_in_turn(self) -> None:
        begin = "limit 20\nimpostor i x aa bbbb -\nask x {3*80000001cc}\n"
        self.assertEqual(self.rows(begin + "  > 80000001aa80000002bbbb\nheard i\n  > cc\n  > cc\n  > cc\n"), "")
        self.assertIn("number 3 has to be", self.rows(begin + "  > 80000001aa80000002bbbb\nheard i\n  > cc\n  > cc\n"))
        self.assertEqual(self.rows("impostor i x aa\nimpostor i x dd\nask x 80000001cc\n  > 80000001dd\nheard i\n  > cc\n"), "")

    def test_cut_connections(self) -> None:
        begin = "limit 20\nstart s: serve {port s} 9\n  > listening\ncuts c x to s 2 %s\nask x 80000001aa\n  > 80000001aa\n"
        for place, left in (("unheard", "-"), ("half", "-"), ("unanswered", "-"), ("halfway", "8000")):
            self.assertEqual(self.rows(begin % place + "ask x 80000001aa\n  > %s\nclose c\n" % left), "")
        self.assertEqual(self.rows(begin % "half" + "cuts c x to s 0 half\nask x 80000001aa\n  > 80000001aa\n"), "")
        twice = "cuts c x to s 1..2 unheard\n" + 2 * "ask x 80000001aa\n  > -\n" + "ask x 80000001aa\n  > 80000001aa\n"
        self.assertEqual(self.rows("limit 20\nstart s: serve {port s} 9\n  > listening\n" + twice), "")
        self.assertIn("and not there", self.rows("cuts c x to s 1 there\n"))

    def test_signals(self) -> None:
        begin = "start s: serve {port s} 9\n  > listening\nstop s\n"
        self.assertEqual(self.rows(begin + "continue s\nask s aa\n  > aa\ninterrupt s\n"), "")
        self.assertIn("doesn't end", self.rows(begin + "limit 1\nask s aa\n  > aa\n"))

    def test_proxies(self) -> None:
        write = "800000064f5344320003"
        begin = "limit 20\nstart s: serve {port s} 9\n  > listening\nproxy p x to s holds write\n"
        begin += "ask x 80000001aa\n  > 80000001aa\n"
        self.assertEqual(self.rows(begin + "connect c x %s\nheld p\nclose c\nclose p\n" % write), "")
        self.assertIn("kept back 0", self.rows(begin + "limit 1\nheld p\n"))

    def test_clusters(self) -> None:
        begin = "cluster c 1\n  file 0 1 4 0 0 0 1\n  format 2\n"
        end = 'has c\n  > server = "127.0.0.1:{port s}"\n  > \n  > format = 2\n'
        self.assertIn("line 4 has to be", self.rows(begin + end))
        self.assertIn("no speed", self.rows("cluster c 1\n  speed 3\n"))


def main() -> int:
    """Runs the tests, and counts them."""
    # A shell starts what runs in the background with SIGINT ignored, and children would inherit that.
    signal.signal(signal.SIGINT, signal.default_int_handler)
    tests = unittest.defaultTestLoader.loadTestsFromModule(sys.modules[__name__])
    result = unittest.TextTestRunner(stream=sys.stdout, verbosity=0).run(tests)
    failed = len(result.failures) + len(result.errors)
    print("cases: %d passed, %d failed" % (result.testsRun - failed, failed))
    return 1 if failed else 0


if __name__ == "__main__":
    sys.exit(main())
