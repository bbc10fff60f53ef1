"""Tests debug_sessions.py, and that gdb_sessions.py names what there is."""
import unittest

import debug_sessions as sessions
import gdb_sessions
from rooms import InARoom, placed


class Sessions(InARoom):
    def session(self, text):
        placed(self.room, {"one.session": text})
        return sessions.Session(self.room / "one.session")

    def test_a_packet_has_its_sum_and_bytes_are_as_they_are(self):
        self.assertEqual([b"$?#3f", b"$g#67", b"$#00"], [sessions.framed(it) for it in ("?", "g", "")])
        self.assertEqual(sessions.raw(r"$?#00\x03+"), b"$?#00\x03+")

    def test_what_is_sent_and_what_comes(self):
        it = self.session("# a comment\n$ debug p.toml in 9\n> ?\n+\n< OK\n>> +\n! dsmon: 8 BadToml\n= 2\n")
        self.assertEqual((it.words, it.all_of(True), it.all_of(False), it.told, it.status), (["debug", "p.toml", "in", "9"], b"$?#3f+", b"+$OK#9a", b"dsmon: 8 BadToml\n", 2))
        self.assertRaises(ValueError, self.session, "% what\n")

    def test_what_is_otherwise(self):
        it = self.session("> ?\n< OK\n")
        self.assertIsNone(sessions.fault_of(it, (b"$OK#9a", b"", 0)))
        for outcome, told in (((b"$E01#a6", b"", 0), "byte 1"), ((b"$OK#9a", b"x", 0), "told"), ((b"$OK#9a", b"", 3), "status")):
            self.assertIn(told, sessions.fault_of(it, outcome))
        self.assertIn("in lock step", sessions.fault_in("/bin/true", it))  # (a program that echoes nothing)


class Gdb(unittest.TestCase):
    def test_its_examples_are_there(self):
        for folder, asked, source, *_ in [*(it["place"] for it in gdb_sessions.SESSIONS), *gdb_sessions.RANDOM]:
            for name in [source, *(it for it in asked.split() if "." in it)]:
                self.assertTrue((gdb_sessions.TOP / folder / name).is_file(), name)

    def test_what_lacks_in_its_order(self):
        self.assertEqual([None, "one"], [gdb_sessions.lacks("one two three", it) for it in (["one", "three"], ["three", "one"])])
