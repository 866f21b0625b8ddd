#!/usr/bin/env python3
"""Tests the Python module and the library: K1 to K12 of document 01 with their answers, the stored conformance cases, damaged states,
saving and restoring, threads.

The library is target/library/libnewelsage.so, or the one that NEWELSAGE_LIBRARY names. The last line is 'N passed, M failed'.
"""

import _ctypes
import ctypes
import json
import os
import random
import re
import sys
import threading
import unittest
import unittest.mock
from pathlib import Path

sys.dont_write_bytecode = True
import newelsage
from newelsage import Answer, Ledger, Library, Status, Tag

ROOT = Path(__file__).resolve().parent.parent.parent
VISIT = ROOT / "samples" / "visit.card"
SAVED = ROOT / "bindings" / "version1.ledger"
LIBRARY = Path(os.environ.get("NEWELSAGE_LIBRARY", ROOT / "target" / "library" / "libnewelsage.so"))
HEADER = ROOT / "include" / "newelsage.h"
CASES = ROOT / "conformance" / "cases.jsonl"

# Document 01's sample register: patient 7, clock 1000; doctor, cardiologist under doctor, nurse; three records.
HEAD = bytes.fromhex("010007 02 0007 000003e8")
ROLES = bytes.fromhex("020004 00 00 01 00")
RECORDS = bytes.fromhex(
    "03000a 00 01f4 0001 0001 00 0000" "03000a 00 01f5 0003 0001 00 0004" "03000a 01 01f6 0002 0003 00 0800"
)
SAMPLE = HEAD + ROLES + RECORDS

DENY, PERMIT = 0, 1
PERSON, ROLE = 0, 1


def directive(number, effect, kind, subject, record, reach, start=1000, until=2000, ps=0xFFFF):
    """The 25 bytes of a directive; the sets that are not named are full."""
    parts = (number, 2), (effect, 1), (kind, 1), (subject, 2), (0xFFFF, 2), (record, 1), (reach, 1)
    filters = (0xFFFF, 2), (ps, 2), (0xFF, 1), (0x07FF, 2)
    return b"".join(part.to_bytes(length, "big") for part, length in (*parts, *filters, (start, 4), (until, 4)))


A = directive(1, DENY, ROLE, 1, record=0, reach=2)
Q = {"person": 600, "role": 1, "origin": 1, "record": 1, "purpose": 0}


class Counting(unittest.TextTestResult):
    passed = 0

    def addSuccess(self, test):
        super().addSuccess(test)
        self.passed += 1


def report(module):
    """Runs the tests of a module and prints how many passed and failed; gives the status."""
    tests = unittest.defaultTestLoader.loadTestsFromModule(module)
    result = unittest.TextTestRunner(sys.stdout, resultclass=Counting).run(tests)
    failed = sum(map(len, (result.failures, result.errors, result.skipped, result.unexpectedSuccesses)))
    print(f"{result.passed} passed, {failed} failed")
    return 0 if result.passed and not failed else 1


class WithLedger(unittest.TestCase):
    @classmethod
    def setUpClass(cls):
        cls.library = Library(LIBRARY)

    def setUp(self):
        self.ledger = Ledger(self.library)
        self.assertEqual(self.ledger.read(SAMPLE), Answer(0, (3, 0)))

    def commits(self, draft, status, *values):
        self.assertEqual(self.ledger.commit(draft), Answer(status, values))

    def decides(self, *values, **changes):
        self.assertEqual(self.ledger.decide(**{**Q, **changes}), Answer(0, values))


class Cases(WithLedger):
    """K1 to K12, the answers as document 01 has them."""

    def test_k1(self):
        self.decides(1, 4)
        self.decides(0, 4, purpose=1)

    def test_k2(self):
        self.commits(A, 0)
        self.decides(0, 3, 1)
        self.decides(1, 4, role=3)

    def test_k3(self):
        self.commits(A, 0)
        self.decides(1, 2, person=501)
        self.decides(1, 1, person=7)

    def test_k4(self):
        self.commits(A, 0)
        self.decides(1, 4, record=0, origin=0)

    def test_k5(self):
        self.commits(A, 0)
        self.commits(directive(2, PERMIT, PERSON, 600, 1, 0, 1500, 2500), 13, 1)
        self.commits(directive(2, PERMIT, PERSON, 600, 1, 0, 2000, 2500), 0)

    def test_k6(self):
        self.commits(A, 0)
        self.commits(directive(2, DENY, ROLE, 2, 1, 1), 14)

    def test_k7(self):
        self.commits(directive(1, DENY, ROLE, 1, 0, 2, 1000, 1500), 0)
        self.commits(directive(2, DENY, ROLE, 1, 0, 2, 1500, 2000), 0)
        self.commits(directive(3, DENY, ROLE, 1, 0, 2, 1200, 1800), 14)

    def test_k8(self):
        self.commits(directive(2, DENY, PERSON, 502, 1, 1), 12)
        self.commits(directive(2, DENY, PERSON, 502, 1, 0), 0)

    def test_k9(self):
        self.commits(directive(2, PERMIT, ROLE, 3, 0, 2, ps=0x0001), 0)
        self.decides(1, 3, 2, role=3, origin=5, purpose=1)
        self.decides(0, 4, role=3, origin=5, purpose=1, record=2)

    def test_k10(self):
        self.assertEqual(self.ledger.issue(9, 600, 0x01, 30), Answer(0))
        self.assertEqual(self.ledger.brief(9, 600), Answer(0, (2, 0, 1)))
        self.assertEqual(self.ledger.advance(1029), Answer(0, (0, 0)))
        self.assertEqual(self.ledger.brief(9, 600), Answer(0, (2, 0, 1)))
        self.assertEqual(self.ledger.advance(1030), Answer(0, (0, 1)))
        self.assertEqual(self.ledger.brief(9, 600), Answer(22))

    def test_k11(self):
        self.commits(A, 0)
        self.assertEqual(self.ledger.advance(2000), Answer(0, (1, 0)))
        self.commits(directive(1, DENY, ROLE, 1, 0, 2, 2000, 3000), 0)

    def test_k12(self):
        self.commits(directive(2, PERMIT, ROLE, 3, 2, 1), 14)


class Calls(WithLedger):
    def test_counts_and_tokens(self):
        self.commits(A, 0)
        self.ledger.issue(9, 600, 0x01, 30)
        self.ledger.issue(4, 601, 0x82, 240)
        self.assertEqual(self.ledger.counts(), (7, 1000, 3, 1, 2))
        self.assertEqual(self.ledger.tokens(), [(9, 600, 0x01, 1030), (4, 601, 0x82, 1240)])
        self.assertEqual(self.ledger.ask(Tag.TOKEN, b"\x02").status, 22)

    def test_revoke(self):
        self.commits(A, 0)
        self.assertEqual(self.ledger.revoke(1), Answer(0))
        self.assertEqual(self.ledger.revoke(1), Answer(15))

    def test_refusals_of_the_other_calls(self):
        self.assertEqual(self.ledger.advance(999), Answer(16))
        self.assertEqual(self.ledger.decide(600, 4, 1, 1, 0), Answer(17))
        self.assertEqual(self.ledger.issue(9, 600, 0, 30), Answer(18))
        self.assertEqual(self.ledger.issue(9, 600, 1, 241), Answer(19))
        self.assertEqual(self.ledger.write(len(SAMPLE) - 1), Answer(24))
        self.assertEqual(Ledger(self.library).write(), Answer(23))

    def test_write(self):
        self.commits(A, 0)
        card = SAMPLE + bytes.fromhex("040019") + A
        self.assertEqual(self.ledger.write(), Answer(0, (len(card),), card))
        self.assertEqual(self.ledger.write(len(card)), Answer(0, (len(card),), card))

    def test_a_write_has_no_more_than_is_lent(self):
        self.assertEqual(self.ledger.ask(Tag.WRITE, b"\xff\xff", len(SAMPLE) - 1), Answer(24))
        self.assertEqual(self.ledger.ask(Tag.WRITE, b"\xff\xff", len(SAMPLE)).data, SAMPLE)

    def test_preview_changes_nothing(self):
        before = self.ledger.save()
        self.assertEqual(self.ledger.preview(600, 1, 1, 0, A), Answer(0, (0b110, 0, 2)))
        self.assertEqual(self.ledger.preview(600, 3, 1, 0, A), Answer(0, (0, 0, 0)))
        self.assertEqual(self.ledger.preview(600, 4, 1, 0, A), Answer(17))
        self.assertEqual(self.ledger.preview(600, 1, 1, 0, A[:24]), Answer(6))
        self.assertEqual(self.ledger.save(), before)

    def test_a_refused_card_gives_the_empty_ledger(self):
        self.assertEqual(self.ledger.read(SAMPLE[:20]).status, 1)
        self.assertEqual(self.ledger.counts(), (0, 0, 0, 0, 0))
        self.assertEqual(self.ledger.read(b"").status, 5)
        self.assertEqual(self.ledger.save(), Ledger(self.library).save())

    def test_a_card_of_the_other_kinds_of_bytes(self):
        self.assertEqual(self.ledger.read(bytearray(SAMPLE)), Answer(0, (3, 0)))
        self.assertEqual(self.ledger.read(memoryview(SAMPLE)), Answer(0, (3, 0)))

    def test_a_conflict_on_a_card_names_the_number(self):
        permit = directive(2, PERMIT, PERSON, 600, 1, 0)
        card = SAMPLE + bytes.fromhex("040019") + A + bytes.fromhex("040019") + permit
        answer = self.ledger.read(card)
        self.assertEqual((answer.status, answer.values[0]), (13, 1))

    def test_what_is_not_made_is_no_answer(self):
        for tag, value in ((0x10 + 4, b""), (0x18, b""), (Tag.REVOKE, b"\x01"), (Tag.ADVANCE, bytes(5))):
            with self.assertRaises(newelsage.Malformed):
                self.ledger.call(tag, value)
        for tag, value in ((Tag.COMMIT, A), (0x02, b""), (Tag.COUNTS, b"\x00"), (Tag.DECIDE, bytes(6))):
            with self.assertRaises(newelsage.Malformed):
                self.ledger.ask(tag, value)
        with self.assertRaises(newelsage.Malformed):
            self.ledger.ask(Tag.PREVIEW, bytes(5))
        self.assertEqual(self.ledger.counts(), (7, 1000, 3, 0, 0))

    def test_arguments_that_cannot_be_handed_on(self):
        for wrong in (5, None, "00", [1]):
            with self.assertRaises(TypeError):
                self.ledger.read(wrong)
            with self.assertRaises(TypeError):
                self.ledger.commit(wrong)
        with self.assertRaises(OverflowError):
            self.ledger.revoke(65536)
        with self.assertRaises(OverflowError):
            self.ledger.advance(-1)
        with self.assertRaises(ValueError):
            self.ledger.call(0x110, A)
        with self.assertRaises(ValueError):
            self.ledger.ask(Tag.WRITE, b"\xff\xff", -1)


class States(WithLedger):
    """Saved, copied and damaged ledgers."""

    def with_a_token(self):
        self.commits(A, 0)
        self.assertEqual(self.ledger.issue(9, 600, 0x01, 30), Answer(0))

    def test_a_saved_ledger_keeps_its_token(self):
        self.with_a_token()
        saved = self.ledger.save()
        self.assertEqual(len(saved), self.library.size)
        again = Ledger(self.library)
        again.restore(saved)
        self.assertEqual(again.brief(9, 600), Answer(0, (2, 0, 1)))
        self.assertEqual(again.tokens(), [(9, 600, 0x01, 1030)])
        self.assertEqual(again.decide(**Q), Answer(0, (0, 3, 1)))
        self.assertEqual(again.advance(1030), Answer(0, (0, 1)))
        self.assertEqual(again.brief(9, 600), Answer(22))
        self.assertEqual(self.ledger.brief(9, 600), Answer(0, (2, 0, 1)))

    def test_a_copy_stands_alone(self):
        self.with_a_token()
        copy = self.ledger.copy()
        self.assertEqual(copy.save(), self.ledger.save())
        self.assertEqual(copy.revoke(1), Answer(0))
        self.assertEqual(self.ledger.counts().directives, 1)
        self.assertEqual(copy.counts().directives, 0)

    def test_the_same_calls_give_the_same_bytes(self):
        self.with_a_token()
        other = Ledger(self.library)
        other.read(SAMPLE)
        other.commit(A)
        other.issue(9, 600, 0x01, 30)
        self.assertEqual(other.save(), self.ledger.save())

    def test_bytes_that_are_no_ledger(self):
        before = self.ledger.save()
        first_byte = bytes([before[0] ^ 1]) + before[1:]
        for wrong in (bytes(len(before)), b"\xff" * len(before), first_byte, before + b"\x00"):
            with self.assertRaises(newelsage.NotALedger):
                self.ledger.restore(wrong)
        for wrong in (b"", before[:8], before[:-1]):
            with self.assertRaises(newelsage.MemoryTooShort):
                self.ledger.restore(wrong)
        self.assertEqual(self.ledger.save(), before)
        self.decides(1, 4)

    def test_garbage_behind_the_stamp_gives_some_answer(self):
        source = random.Random(20261117)
        stamp = self.ledger.save()[:8]
        for fill in (b"\x00", b"\xff", None, None, None, None):
            rest = self.library.size - len(stamp)
            garbage = stamp + (source.randbytes(rest) if fill is None else fill * rest)
            self.ledger.restore(garbage)
            for _ in range(20):
                self.ledger.ask(Tag.DECIDE, source.randbytes(7))
                self.ledger.ask(Tag.BRIEF, source.randbytes(4))
                self.ledger.ask(Tag.PREVIEW, source.randbytes(6) + A)
                self.ledger.ask(Tag.TOKEN, source.randbytes(1))
            self.ledger.write()
            self.assertEqual(self.ledger.save(), garbage)
            for draft in (A, directive(2, PERMIT, PERSON, 600, 1, 0)):
                self.ledger.commit(draft)
            self.ledger.advance(2**32 - 1)
            self.assertEqual(self.ledger.read(SAMPLE), Answer(0, (3, 0)))

    def test_the_stored_ledger(self):
        """Another layout needs another version: these bytes were saved by version 1."""
        self.assertTrue(self.ledger.read(VISIT.read_bytes()).accepted)
        self.assertTrue(self.ledger.issue(9, 600, 0x01, 30).accepted)
        self.assertEqual(self.ledger.save(), SAVED.read_bytes())
        other = Ledger(self.library)
        other.restore(SAVED.read_bytes())
        self.assertEqual(other.counts(), newelsage.Counts(7, 1000, 3, 1, 1))
        self.assertEqual(other.tokens(), [newelsage.Token(9, 600, 0x01, 1030)])
        self.assertEqual(other.decide(600, 1, 1, 1, 0), Answer(0, (0, 3, 1)))
        self.assertEqual(other.brief(9, 600), Answer(0, (2, 0, 1)))

    def test_nothing_beyond_the_memory_is_touched(self):
        size, edge = self.library.size, 64
        memory = (ctypes.c_uint64 * ((size + 2 * edge) // 8))()
        ctypes.memset(memory, 0xA5, ctypes.sizeof(memory))
        address = ctypes.addressof(memory) + edge
        answer = newelsage._Answer()
        self.assertEqual(self.library.empty(address, size), 0)
        self.assertEqual(self.library.read(address, size, SAMPLE, len(SAMPLE), ctypes.byref(answer)), 0)
        for tag, value in ((0x10, A), (0x13, bytes.fromhex("0009 0258 01 0000001e")), (0x12, bytes.fromhex("00000405"))):
            self.assertEqual(self.library.call(address, size, tag, value, len(value), ctypes.byref(answer)), 0)
        held = bytes(memory)
        self.assertEqual((held[:edge], held[-edge:]), (b"\xa5" * edge, b"\xa5" * edge))

    def test_too_little_memory_is_not_touched(self):
        memory = (ctypes.c_uint64 * (self.library.size // 8))()
        ctypes.memset(memory, 0xA5, ctypes.sizeof(memory))
        before, answer = bytes(memory), newelsage._Answer()
        short = self.library.size - 1
        self.assertEqual(self.library.empty(memory, short), 102)
        self.assertEqual(self.library.read(memory, short, SAMPLE, len(SAMPLE), ctypes.byref(answer)), 102)
        self.assertEqual(self.library.call(memory, short, 0x10, A, len(A), ctypes.byref(answer)), 102)
        self.assertEqual(bytes(memory), before)


class Replays(WithLedger):
    """The stored conformance cases, every line."""

    def lines(self, replay):
        end = 2 + int.from_bytes(replay[:2], "big")
        if not 2 <= end <= len(replay):
            return ["malformed"]
        read = self.ledger.read(replay[2:end])
        lines = [self.line(read) if read.accepted else f"{read.status} 0 0"]
        while end < len(replay):
            tag, start = replay[end], end + 3
            end = start + int.from_bytes(replay[end + 1 : start], "big")
            if max(start, end) > len(replay):
                return lines + ["malformed"]
            try:
                lines.append(self.line(self.answer(tag, replay[start:end])))
            except newelsage.Malformed:
                return lines + ["malformed"]
        return lines

    def answer(self, tag, value):
        if tag < Tag.COMMIT:
            raise newelsage.Malformed
        return self.ledger.call(tag, value) if tag <= Tag.ISSUE else self.ledger.ask(tag, value, lent=65535)

    @staticmethod
    def line(answer):
        words = [str(number) for number in (answer.status, *answer.values)]
        return " ".join(words + [answer.data.hex()] if answer.data else words)

    def test_the_conformance_cases(self):
        cases = [json.loads(line) for line in CASES.read_text().splitlines()]
        self.assertGreater(len(cases), 400)
        for case in cases:
            self.assertEqual(self.lines(bytes.fromhex(case["input"])), case["expected"], case["id"])


class Loading(unittest.TestCase):
    def test_this_module_is_for_the_header(self):
        numbers = re.findall(r"NEWELSAGE_([A-Z_]+)(?: = | )(0x[0-9a-f]+|\d+)", HEADER.read_text())
        header = {name: int(number, 0) for name, number in numbers}
        here = {"VERSION": newelsage.VERSION, "SIZE": newelsage.SIZE, "LONGEST_CARD": newelsage.LONGEST_CARD, **Status.__members__}
        here.update((f"TAG_{name}", tag) for name, tag in Tag.__members__.items())
        not_made = {newelsage.Malformed: "MALFORMED", newelsage.MemoryTooShort: "MEMORY_TOO_SHORT"}
        not_made[newelsage.NotALedger] = "NOT_A_LEDGER"
        here.update((not_made[kind], number) for number, kind in newelsage._NOT_MADE.items())
        self.assertEqual(here, header)

    def test_what_cannot_be_loaded(self):
        for path in ("no-such-library.so", HEADER, _ctypes.__file__):
            with self.assertRaisesRegex(newelsage.Unusable, "cannot be loaded"):
                Library(path)

    def test_another_version_or_size(self):
        for name in ("VERSION", "SIZE"):
            with unittest.mock.patch.object(newelsage, name, getattr(newelsage, name) + 8):
                with self.assertRaisesRegex(newelsage.Unusable, "this module is for"):
                    Library(LIBRARY)


class Threads(WithLedger):
    def test_ledgers_of_their_own_and_one_that_all_ask(self):
        self.commits(A, 0)
        wrong = []

        def work(seed):
            own = Ledger(self.library)
            for turn in range(200):
                own.read(SAMPLE)
                until = 2000 + (seed + turn) % 7
                got = (
                    own.commit(directive(1, DENY, ROLE, 1, 0, 2, 1000, until)),
                    own.decide(**Q),
                    own.advance(until),
                    own.decide(**Q),
                    self.ledger.decide(**Q),
                )
                if got != (Answer(0), Answer(0, (0, 3, 1)), Answer(0, (1, 0)), Answer(0, (1, 4)), Answer(0, (0, 3, 1))):
                    wrong.append(got)

        threads = [threading.Thread(target=work, args=(seed,)) for seed in range(8)]
        for thread in threads:
            thread.start()
        for thread in threads:
            thread.join()
        self.assertEqual(wrong, [])


if __name__ == "__main__":
    sys.exit(report(sys.modules[__name__]))
