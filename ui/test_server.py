#!/usr/bin/env python3
"""Tests the screen's endpoint and its server: K1 to K12 of document 01 with what the page has to be told, explaining programs that lie or
fail, and every refusal of a request.

The library is target/library/libnewelsage.so, or the one that NEWELSAGE_LIBRARY names, the explaining program
checker/target/release/checker, or the one that NEWELSAGE_CHECKER names. The last line is 'N passed, M failed'.
"""

import contextlib
import http.client
import json
import os
import re
import signal
import socket
import subprocess
import sys
import tempfile
import threading
import time
import unittest
import unittest.mock
from pathlib import Path

sys.dont_write_bytecode = True
import answers
import newelsage
import server
from test_newelsage import DENY, LIBRARY, PERMIT, PERSON, ROLE, SAMPLE, A, directive, report

TOP = Path(__file__).resolve().parent.parent
CHECKER = Path(os.environ.get("NEWELSAGE_CHECKER", TOP / "checker" / "target" / "release" / "checker"))

K5 = directive(2, PERMIT, PERSON, 600, 1, 0, 1500, 2500)
K6 = directive(2, DENY, ROLE, 2, 1, 1)
K7_FIRST = directive(1, DENY, ROLE, 1, 0, 2, 1000, 1500)
K7_SECOND = directive(2, DENY, ROLE, 1, 0, 2, 1500, 2000)
K7 = directive(3, DENY, ROLE, 1, 0, 2, 1200, 1800)
K8 = directive(2, DENY, PERSON, 502, 1, 1)
K9 = directive(2, PERMIT, ROLE, 3, 0, 2, ps=0x0001)
K12 = directive(2, PERMIT, ROLE, 3, 2, 1)

TOKEN = {"tag": 0x13, "value": "00090258010000001e"}

DENY_4 = {"effect": 0, "basis": 4, "number": None}
PERMIT_4 = {"effect": 1, "basis": 4, "number": None}
DENY_A = {"effect": 0, "basis": 3, "number": 1}


def commit(draft):
    return {"tag": 0x10, "value": draft.hex()}


def advance(minute):
    return {"tag": 0x12, "value": minute.to_bytes(4, "big").hex()}


def column(person=600, role=1, origin=1, purpose=0):
    return {"person": person, "role": role, "origin": origin, "purpose": purpose}


def field(draft):
    """The field of a directive on a card."""
    return bytes.fromhex("040019") + draft


def request(card=SAMPLE, calls=(), columns=(), draft=None, alternatives=(), states=()):
    return {
        "card": card.hex(),
        "calls": list(calls),
        "columns": list(columns),
        "draft": None if draft is None else draft.hex(),
        "alternatives": [alternative.hex() for alternative in alternatives],
        "states": list(states),
    }


class WithGateway(unittest.TestCase):
    @classmethod
    def setUpClass(cls):
        cls.library = newelsage.Library(LIBRARY)

    def setUp(self):
        self.warnings = []
        self.gateway = self.explained_by(CHECKER)

    def explained_by(self, program, seconds=10.0):
        return answers.Gateway(self.library, answers.Explainer(program, seconds), self.warnings.append)

    def answer(self, **parts):
        return self.gateway.answer(json.dumps(request(**parts)).encode())

    def told(self, draft, *committed):
        """What is told of a draft after these commits, without a warning."""
        told = self.answer(calls=[commit(one) for one in committed], draft=draft)["draft"]
        self.assertEqual(self.warnings, [])
        return told


class Cases(WithGateway):
    """K1 to K12, the answers as document 01 has them."""

    def test_k1(self):
        answer = self.answer(columns=[column(), column(purpose=1)])
        self.assertEqual(
            answer["columns"],
            [{"status": 0, "decisions": [DENY_4, PERMIT_4, PERMIT_4]}, {"status": 0, "decisions": [DENY_4] * 3}],
        )
        self.assertEqual(answer["draft"], None)

    def test_k2(self):
        answer = self.answer(calls=[commit(A)], columns=[column(), column(role=3)])
        self.assertEqual(answer["calls"], [{"status": 0, "values": [], "minute": 1000}])
        self.assertEqual(
            answer["columns"],
            [
                {"status": 0, "decisions": [DENY_4, DENY_A, DENY_A]},
                {"status": 0, "decisions": [DENY_4, PERMIT_4, PERMIT_4]},
            ],
        )

    def test_k3_and_k4(self):
        answer = self.answer(calls=[commit(A)], columns=[column(person=501), column(person=7), column(origin=0)])
        author, patient, practice = (one["decisions"] for one in answer["columns"])
        self.assertEqual(author, [DENY_4, {"effect": 1, "basis": 2, "number": None}, DENY_A])
        self.assertEqual(patient, [{"effect": 1, "basis": 1, "number": None}] * 3)
        self.assertEqual(practice[0], PERMIT_4)

    def test_k5(self):
        told = self.told(K5, A)
        shared = told.pop("request")
        self.assertEqual(told, {"status": 13, "number": 1})
        self.assertEqual((shared["person"], shared["record"], shared["any_person"]), (600, 1, False))
        self.assertIn(shared["role"], (1, 2))
        self.assertIn(shared["origin"], range(16))
        self.assertIn(shared["purpose"], range(11))
        self.assertIn(shared["minute"], range(1500, 2000))

    def test_k5_from_minute_2000(self):
        later = directive(2, PERMIT, PERSON, 600, 1, 0, 2000, 2500)
        answer = self.answer(calls=[commit(A)], columns=[column()], draft=later, alternatives=[K5, later])
        unchanged = {"status": 0, "changes": [], "count": 0, "decisions": [DENY_4, DENY_A, DENY_A]}
        self.assertEqual(answer["draft"], {"status": 0, "columns": [unchanged]})
        self.assertEqual(answer["alternatives"], [13, 0])

    def test_a_conflict_of_two_roles_is_for_any_person(self):
        shared = self.told(directive(2, PERMIT, ROLE, 2, 1, 1), A)["request"]
        self.assertEqual((shared["role"], shared["record"], shared["any_person"]), (2, 2, True))
        self.assertIn(shared["minute"], range(1000, 2000))

    def test_a_conflict_with_the_lower_number(self):
        second = directive(0, DENY, PERSON, 600, 1, 0)
        told = self.told(K5, A, second)
        self.assertEqual((told["number"], told["request"]["person"]), (0, 600))

    def test_k6(self):
        self.assertEqual(self.told(K6, A), {"status": 14, "cover": [1]})

    def test_k7(self):
        self.assertEqual(self.told(K7, K7_FIRST, K7_SECOND), {"status": 14, "cover": [1, 2]})

    def test_k8(self):
        self.assertEqual(self.told(K8), {"status": 12, "patient": False, "records": [2]})
        self.assertEqual(self.told(directive(2, DENY, PERSON, 502, 1, 0))["status"], 0)

    def test_a_deny_that_names_the_patient(self):
        told = self.told(directive(2, DENY, PERSON, 7, 0, 2))
        self.assertEqual(told, {"status": 12, "patient": True, "records": [1, 2]})

    def test_k9(self):
        answer = self.answer(columns=[column(role=3, origin=5, purpose=1)], draft=K9)
        after = [DENY_4, {"effect": 1, "basis": 3, "number": 2}, DENY_4]
        self.assertEqual(
            answer["draft"], {"status": 0, "columns": [{"status": 0, "changes": [1], "count": 1, "decisions": after}]}
        )

    def test_k10(self):
        live = self.answer(calls=[TOKEN, advance(1029)], states=[1, 2])
        token = {"number": 9, "person": 600, "states": 1, "until": 1030, "records": [1], "count": 1}
        self.assertEqual(live["ledger"]["tokens"], [token])
        self.assertEqual(
            live["briefs"],
            [{"states": 1, "records": [1], "count": 1}, {"states": 2, "records": [], "count": 0}],
        )
        ended = self.answer(calls=[TOKEN, advance(1029), advance(1030)])
        self.assertEqual(ended["ledger"]["tokens"], [])
        self.assertEqual(
            ended["calls"],
            [
                {"status": 0, "values": [], "minute": 1000},
                {"status": 0, "values": [0, 0], "minute": 1000},
                {"status": 0, "values": [0, 1], "minute": 1029},
            ],
        )

    def test_k11(self):
        answer = self.answer(calls=[commit(A), advance(2000), commit(directive(1, DENY, ROLE, 1, 0, 2, 2000, 3000))])
        self.assertEqual([call["values"] for call in answer["calls"]], [[], [1, 0], []])
        self.assertEqual([one["number"] for one in answer["ledger"]["directives"]], [1])

    def test_k12(self):
        self.assertEqual(self.told(K12), {"status": 14, "cover": []})


class Answers(WithGateway):
    def test_the_ledger_and_the_card_to_save(self):
        answer = self.answer(calls=[commit(A)])
        self.assertEqual(answer["card"], {"status": 0, "edition": 2, "records": 3, "directives": 0, "clock": 1000})
        self.assertEqual(answer["written"], (SAMPLE + field(A)).hex())
        names = ("parent", "author", "origins", "sensitivities", "type", "labels")
        rows = (0, 500, 1, 1, 0, 0), (0, 501, 3, 1, 0, 4), (1, 502, 2, 3, 0, 0x0800)
        full = {"subject_origins": 0xFFFF, "po": 0xFFFF, "ps": 0xFFFF, "pt": 0xFF, "purposes": 0x07FF}
        named = {"number": 1, "effect": 0, "kind": 1, "subject": 1, "record": 0, "reach": 2, "from": 1000, "until": 2000}
        self.assertEqual(
            answer["ledger"],
            {
                "patient": 7,
                "clock": 1000,
                "roles": [0, 0, 1, 0],
                "records": [dict(zip(names, row)) for row in rows],
                "directives": [{**full, **named}],
                "tokens": [],
            },
        )

    def test_a_card_of_edition_1(self):
        card = SAMPLE[:3] + b"\x01" + SAMPLE[4:] + bytes.fromhex("040017") + A[:15] + A[17:]
        answer = self.answer(card=card)
        self.assertEqual(answer["card"], {"status": 0, "edition": 1, "records": 3, "directives": 1, "clock": 1000})
        self.assertEqual(answer["written"], (SAMPLE + field(A)).hex())

    def test_a_requester_that_the_register_does_not_have(self):
        answer = self.answer(columns=[column(role=4), column(origin=16), column(purpose=11)], draft=A)
        self.assertEqual(answer["columns"], [{"status": 17}] * 3)
        self.assertEqual(answer["draft"], {"status": 0, "columns": [{"status": 17}] * 3})

    def test_drafts_that_are_refused_before_12(self):
        zero = bytes(25)
        wrong = {6: A[:24], 7: zero, 8: directive(2, DENY, ROLE, 4, 0, 2), 9: directive(2, DENY, ROLE, 1, 0, 2, 900, 1000)}
        for status, draft in {**wrong, 10: A}.items():
            answer = self.answer(calls=[commit(A)], columns=[column()], draft=draft, alternatives=[draft])
            self.assertEqual((answer["draft"], answer["alternatives"]), ({"status": status}, [status]))
        self.assertEqual(self.answer(draft=b"")["draft"], {"status": 6})

    def test_refused_calls(self):
        revoke, issue = {"tag": 0x11, "value": "0009"}, {"tag": 0x13, "value": "00090258000000001e"}
        answer = self.answer(calls=[commit(A), commit(K5), revoke, advance(999), issue])
        self.assertEqual(
            [(call["status"], call["values"]) for call in answer["calls"]], [(0, []), (13, [1]), (15, []), (16, []), (18, [])]
        )

    def test_what_a_draft_changes(self):
        answer = self.answer(columns=[column(), column(role=3), column(person=502), column(person=7)], draft=A)
        doctor, nurse, author, patient = answer["draft"]["columns"]
        self.assertEqual((doctor["changes"], doctor["count"]), ([1, 2], 2))
        self.assertEqual(doctor["decisions"], [DENY_4, DENY_A, DENY_A])
        self.assertEqual((nurse["changes"], patient["changes"], author["changes"]), ([], [], [1]))
        self.assertEqual(answer["ledger"]["directives"], [])

    def test_a_brief_in_the_last_minute(self):
        answer = self.answer(calls=[advance(2**32 - 1)], states=[255])
        self.assertEqual(answer["briefs"], [{"states": 255, "records": [1], "count": 1}])

    def test_all_the_records_of_a_large_card(self):
        record = SAMPLE[17:30]
        marked = record[:11] + b"\x00\x01"
        card = SAMPLE[:17] + record + marked * 127
        answer = self.answer(card=card, columns=[column(origin=0)], draft=A, states=[1])
        self.assertEqual(answer["briefs"], [{"states": 1, "records": list(range(1, 128)), "count": 127}])
        self.assertEqual(answer["draft"]["columns"][0]["changes"], list(range(1, 128)))

    def test_answers_that_do_not_agree(self):
        wrong = {
            "preview": newelsage.Answer(0, (2, 0, 1)),
            "write": newelsage.Answer(0, (len(SAMPLE),), SAMPLE[:3] + b"\x01" + SAMPLE[4:]),
            "counts": newelsage.Counts(7, 1000, 3, 1, 0),
            "brief": newelsage.Answer(0, (1, 0, 2)),
        }
        for name, answer in wrong.items():
            with unittest.mock.patch.object(newelsage.Ledger, name, lambda *_, answer=answer: answer):
                with self.assertRaises(answers.Failure, msg=name):
                    self.answer(columns=[column()], draft=A, states=[1])

    def test_decisions_that_there_are_not(self):
        for values in ((2, 4), (1, 0), (1, 5), (1, 3), (1, 4, 1), (1,), ()):
            with unittest.mock.patch.object(newelsage.Ledger, "decide", lambda *_, values=values: newelsage.Answer(0, values)):
                with self.assertRaises(answers.Failure, msg=values):
                    self.answer(columns=[column()])

    def test_decisions_that_their_basis_does_not_bear_out(self):
        for values in ((0, 1), (0, 2), (1, 3, 1), (0, 3, 2), (1, 3, 2)):
            with unittest.mock.patch.object(newelsage.Ledger, "decide", lambda *_, values=values: newelsage.Answer(0, values)):
                with self.assertRaises(answers.Failure, msg=values):
                    self.answer(calls=[commit(A)], columns=[column()])
        for values in ((1, 1), (1, 2), (0, 3, 1)):
            with unittest.mock.patch.object(newelsage.Ledger, "decide", lambda *_, values=values: newelsage.Answer(0, values)):
                shown = self.answer(calls=[commit(A)], columns=[column()])["columns"][0]["decisions"][0]
                self.assertEqual((shown["effect"], shown["basis"]), values[:2])

    def test_a_draft_that_decides_otherwise_than_it_says(self):
        decide = newelsage.Ledger.decide

        def turned(ledger, *asked):
            answer = decide(ledger, *asked)
            return newelsage.Answer(0, (1, 3, 1)) if answer.values[1:] == (3, 1) else answer

        unchanged = newelsage.Answer(0, (0, 0, 0))
        with unittest.mock.patch.object(newelsage.Ledger, "decide", turned):
            with unittest.mock.patch.object(newelsage.Ledger, "preview", lambda *_: unchanged):
                with self.assertRaisesRegex(answers.Failure, "basis"):
                    self.answer(columns=[column()], draft=A)

    def test_a_preview_that_does_not_refuse_as_the_commit(self):
        for answer in (newelsage.Answer(0, (0, 0, 0)), newelsage.Answer(13, (2,)), newelsage.Answer(17)):
            with unittest.mock.patch.object(newelsage.Ledger, "preview", lambda *_, answer=answer: answer):
                with self.assertRaises(answers.Failure):
                    self.answer(calls=[commit(A)], columns=[column()], draft=K5)

    def test_a_library_that_does_not_answer(self):
        with unittest.mock.patch.object(newelsage.Ledger, "decide", side_effect=newelsage.NotALedger("no ledger")):
            with self.assertRaises(answers.Failure):
                self.answer(columns=[column()])


class RefusedCards(WithGateway):
    def refused(self, card):
        answer = self.answer(card=card)
        self.assertEqual((list(answer), self.warnings), (["card"], []))
        self.assertEqual(answer["card"]["length"], len(card))
        return answer["card"]

    def fault(self, card, status):
        refused = self.refused(card)
        self.assertEqual(refused["status"], status)
        self.assertIn(" ", refused["fault"].pop("words"))
        return refused["fault"]

    def test_a_record_inside_one_that_comes_later(self):
        card = SAMPLE[:33] + b"\x05" + SAMPLE[34:]
        refused = self.refused(card)
        self.assertEqual((refused["edition"], refused["patient"], refused["values"]), (2, 7, []))
        self.assertEqual(self.fault(card, 4), {"field": 3, "tag": 3, "offset": 30, "end": 43, "byte": 33})

    def test_a_card_that_is_cut(self):
        fault = self.fault(SAMPLE[:50], 1)
        self.assertEqual((fault["field"], fault["tag"], fault["offset"], fault["end"]), (4, 3, 43, 50))

    def test_a_field_out_of_its_place(self):
        fault = self.fault(SAMPLE + bytes.fromhex("090000"), 2)
        self.assertEqual((fault["field"], fault["tag"], fault["offset"], fault["end"]), (5, 9, 56, 59))

    def test_a_record_too_many(self):
        fault = self.fault(SAMPLE[:17] + SAMPLE[17:30] * 129, 3)
        self.assertEqual((fault["field"], fault["tag"], fault["offset"]), (130, 3, 17 + 13 * 128))

    def test_an_edition_that_there_is_not(self):
        card = SAMPLE[:3] + b"\x03" + SAMPLE[4:]
        self.assertEqual(self.fault(card, 4), {"field": 0, "tag": 1, "offset": 0, "end": 10, "byte": 3})
        self.assertEqual((self.refused(card)["edition"], self.refused(card)["patient"]), (None, None))

    def test_a_card_without_records(self):
        refused = self.refused(SAMPLE[:17])
        self.assertEqual((refused["status"], refused["edition"], refused["patient"], refused["fault"]), (5, 2, 7, None))
        refused = self.refused(b"")
        self.assertEqual((refused["status"], refused["edition"], refused["patient"], refused["fault"]), (5, None, None, None))

    def test_directives_that_are_refused(self):
        wrong = {
            7: directive(2, 2, ROLE, 1, 0, 2),
            8: directive(2, DENY, ROLE, 1, 3, 2),
            9: directive(2, DENY, ROLE, 1, 0, 2, 900, 1000),
            10: A,
            12: K8,
            13: K5,
        }
        for status, draft in wrong.items():
            fault = self.fault(SAMPLE + field(A) + field(draft), status)
            self.assertEqual((fault["field"], fault["tag"], fault["offset"], fault["end"]), (6, 4, 84, 112))
        self.assertEqual(self.refused(SAMPLE + field(A) + field(K5))["values"][:1], [1])

    def test_the_33rd_directive(self):
        card = SAMPLE + b"".join(field(directive(number, DENY, ROLE, 1, 0, 2)) for number in range(33))
        self.assertEqual(self.fault(card, 11)["field"], 5 + 32)


class Explained(WithGateway):
    """Explaining programs that are made on the fly."""

    def setUp(self):
        super().setUp()
        folder = tempfile.TemporaryDirectory()
        self.addCleanup(folder.cleanup)
        self.folder = Path(folder.name)

    def program(self, script, seconds=10.0):
        path = self.folder / "explain"
        path.write_text(f"#!/bin/sh\n{script}\n")
        path.chmod(0o700)
        self.gateway = self.explained_by(path, seconds)

    def printing(self, facts):
        (self.folder / "facts").write_text(json.dumps(facts) + "\n")
        self.program(f"cat '{self.folder}/facts'")

    def saying(self, line, **reason):
        self.printing({"card": {"refusal": 0}, "calls": [{"tag": 16, "line": line, **reason}]})

    def draft(self, draft, *committed):
        return self.answer(calls=[commit(one) for one in committed], draft=draft)["draft"]

    def not_shown(self, told, expected):
        self.assertEqual(told, expected)
        self.assertEqual(len(self.warnings), 1)
        self.warnings.clear()


class Lies(Explained):
    """What is not so is not shown; what is so is."""

    SHARED = {"person": 600, "role": 1, "origin": 0, "record": 1, "purpose": 0, "minute": 1500, "any_person": False}

    def test_13(self):
        for truth in ({}, {"role": 2}, {"minute": 1999}, {"origin": 15, "purpose": 10}):
            shared = {**self.SHARED, **truth}
            self.saying("13 1", number=1, request=shared)
            self.assertEqual(self.draft(K5, A), {"status": 13, "number": 1, "request": shared})
        self.assertEqual(self.warnings, [])
        lies = [
            *({"person": 601}, {"role": 0}, {"role": 3}, {"role": 4}, {"origin": 16}, {"record": 0}, {"record": 2}),
            *({"record": 3}, {"purpose": 11}, {"minute": 999}, {"minute": 1499}, {"minute": 2000}),
            *({"minute": 2**32 - 1}, {"any_person": True}),
        ]
        for lie in lies:
            self.saying("13 1", number=1, request={**self.SHARED, **lie})
            self.not_shown(self.draft(K5, A), {"status": 13, "number": 1, "request": None})

    def test_13_of_two_persons(self):
        named = directive(1, DENY, PERSON, 600, 1, 0)
        for role, shown in ((0, True), (3, True), (4, False)):
            shared = {**self.SHARED, "role": role}
            self.saying("13 1", number=1, request=shared)
            self.assertEqual(self.draft(K5, named)["request"], shared if shown else None)

    def test_13_with_another_line_or_number(self):
        for line, reason in (
            ("13 1", {"number": 2, "request": self.SHARED}),
            ("13 2", {"number": 1, "request": self.SHARED}),
            ("13 1", {"number": 1, "request": None}),
            ("14", {"cover": [1]}),
            ("0", {}),
            ("malformed", {}),
        ):
            self.saying(line, **reason)
            self.not_shown(self.draft(K5, A), {"status": 13, "number": 1, "request": None})

    def test_13_outside_the_sets_of_the_directives(self):
        narrow = K5[:6] + bytes.fromhex("0002") + K5[8:15] + bytes.fromhex("0004") + K5[17:]
        self.saying("13 1", number=1, request={**self.SHARED, "origin": 1, "purpose": 2})
        self.assertIsNotNone(self.draft(narrow, A)["request"])
        for lie in ({"origin": 1}, {"purpose": 2}, {}):
            self.saying("13 1", number=1, request={**self.SHARED, **lie})
            self.not_shown(self.draft(narrow, A), {"status": 13, "number": 1, "request": None})

    def test_13_of_two_roles(self):
        draft = directive(2, PERMIT, ROLE, 2, 1, 1)
        shared = {**self.SHARED, "role": 2, "record": 2, "any_person": True}
        self.saying("13 1", number=1, request=shared)
        self.assertEqual(self.draft(draft, A)["request"], shared)
        for lie in ({"role": 1}, {"role": 0}, {"role": 3}, {"any_person": False}):
            self.saying("13 1", number=1, request={**shared, **lie})
            self.not_shown(self.draft(draft, A), {"status": 13, "number": 1, "request": None})

    def test_14(self):
        unrelated = directive(5, DENY, ROLE, 3, 0, 2)
        opposite = directive(6, PERMIT, ROLE, 3, 2, 0, 3000, 4000)
        self.saying("14", cover=[1])
        self.assertEqual(self.draft(K6, A, unrelated, opposite), {"status": 14, "cover": [1]})
        for cover in ([], [5], [6], [9], [1, 5], [1, 1], [5, 6], None):
            self.saying("14", cover=cover)
            self.not_shown(self.draft(K6, A, unrelated, opposite), {"status": 14, "cover": None})

    def test_14_by_several(self):
        self.saying("14", cover=[2, 1])
        self.assertEqual(self.draft(K7, K7_FIRST, K7_SECOND), {"status": 14, "cover": [2, 1]})
        for cover in ([1], [2], [1, 2, 3]):
            self.saying("14", cover=cover)
            self.not_shown(self.draft(K7, K7_FIRST, K7_SECOND), {"status": 14, "cover": None})

    def test_14_of_a_draft_that_matches_nothing(self):
        permit = directive(3, PERMIT, ROLE, 1, 0, 0)
        self.saying("14", cover=[])
        self.assertEqual(self.draft(K12, permit), {"status": 14, "cover": []})
        self.saying("14", cover=[3])
        self.not_shown(self.draft(K12, permit), {"status": 14, "cover": None})

    def test_12(self):
        self.saying("12", patient=False, records=[2])
        self.assertEqual(self.draft(K8), {"status": 12, "patient": False, "records": [2]})
        for patient, records in ((False, []), (False, [1]), (False, [1, 2]), (False, [2, 2]), (False, [200]), (True, [2])):
            self.saying("12", patient=patient, records=records)
            self.not_shown(self.draft(K8), {"status": 12, "patient": False, "records": None})

    def test_12_of_records_that_others_wrote(self):
        draft = directive(2, DENY, PERSON, 502, 0, 2)
        self.saying("12", patient=False, records=[2])
        self.assertEqual(self.draft(draft), {"status": 12, "patient": False, "records": [2]})
        self.saying("12", patient=False, records=[1, 2])
        self.not_shown(self.draft(draft), {"status": 12, "patient": False, "records": None})

    def test_12_of_the_patient(self):
        draft = directive(2, DENY, PERSON, 7, 0, 2)
        self.saying("12", patient=True, records=[1, 2])
        self.assertEqual(self.draft(draft), {"status": 12, "patient": True, "records": [1, 2]})
        for patient, records in ((True, [0, 1, 2]), (True, [1]), (False, [1, 2])):
            self.saying("12", patient=patient, records=records)
            self.not_shown(self.draft(draft), {"status": 12, "patient": True, "records": None})

    def test_the_place_of_a_fault(self):
        card = SAMPLE[:33] + b"\x05" + SAMPLE[34:]
        truth = {"index": 3, "tag": 3, "offset": 30, "end": 43, "byte": 33, "words": "Record 1 is inside record 5."}
        self.printing({"card": {"refusal": 4, "field": truth}, "calls": []})
        self.assertEqual(self.answer(card=card)["card"]["fault"]["offset"], 30)
        lies = [
            *({"index": 2}, {"index": 5}, {"tag": 4}, {"tag": None}, {"offset": 31}, {"end": 42}, {"end": 57}, {"byte": 29}, {"byte": 43}),
            *({"index": 2, "offset": 17, "end": 30, "byte": None}, {"index": 4, "offset": 43, "end": 56, "byte": None}),
            *({"offset": 43, "end": 43, "byte": None}, {"end": 56}, {"index": 2, "offset": 17}),
            *({"index": 2, "offset": 17, "end": 56}, {"index": 0, "tag": 1, "offset": 0, "end": 56}),
        ]
        for lie in lies:
            self.printing({"card": {"refusal": 4, "field": {**truth, **lie}}, "calls": []})
            self.not_shown(self.answer(card=card)["card"]["fault"], None)
        for facts in ({"refusal": 0}, {"refusal": 2, "field": truth}, {"refusal": 4, "field": None}):
            self.printing({"card": facts, "calls": []})
            self.not_shown(self.answer(card=card)["card"]["fault"], None)

    def test_the_place_of_a_fault_on_a_card_that_is_cut(self):
        for length, end in ((50, 50), (45, 45), (44, 44)):
            truth = {"index": 4, "tag": 3, "offset": 43, "end": end, "byte": None, "words": "It is cut."}
            self.printing({"card": {"refusal": 1, "field": truth}, "calls": []})
            self.assertEqual(self.answer(card=SAMPLE[:length])["card"]["fault"]["end"], end)
            self.printing({"card": {"refusal": 1, "field": {**truth, "end": 56}}, "calls": []})
            self.not_shown(self.answer(card=SAMPLE[:length])["card"]["fault"], None)

    def test_the_wrong_byte_of_a_fault(self):
        card = SAMPLE[:33] + b"\x05" + SAMPLE[34:]
        truth = {"index": 3, "tag": 3, "offset": 30, "end": 43, "byte": 33, "words": "Record 1 is inside record 5."}
        shown = {"field": 3, "tag": 3, "offset": 30, "end": 43, "byte": None, "words": truth["words"]}
        for byte, there in ((33, True), (30, True), (34, False), (42, False)):
            self.printing({"card": {"refusal": 4, "field": {**truth, "byte": byte}}, "calls": []})
            self.assertEqual(self.answer(card=card)["card"]["fault"], {**shown, "byte": byte if there else None})
        self.assertEqual(self.warnings, [])

    def test_the_words_of_a_fault(self):
        card = SAMPLE[:33] + b"\x05" + SAMPLE[34:]
        truth = {"index": 3, "tag": 3, "offset": 30, "end": 43, "byte": 33}
        for words, shown in (
            *(("It is ~ so.", True), ("x" * 300, True), ("x" * 301, False), ("", False), ("two\nlines", False), ("line\n", False)),
            *(("\x7f", False), ("\u201cquoted\u201d", False), ("\u202eturned", False)),
        ):
            self.printing({"card": {"refusal": 4, "field": {**truth, "words": words}}, "calls": []})
            fault = self.answer(card=card)["card"]["fault"]
            self.assertEqual((fault["words"], fault["byte"]), (words if shown else None, 33))
            self.assertEqual(len(self.warnings), 0 if shown else 1)
            self.warnings.clear()

    def test_the_number_of_a_conflict_on_a_card(self):
        card = SAMPLE + field(A) + field(K5)
        truth = {"index": 6, "tag": 4, "offset": 84, "end": 112, "byte": None, "words": "It conflicts with directive 1."}
        for number, shown in ((1, True), (2, False)):
            facts = {"refusal": 13, "number": number, "field": truth, "request": self.SHARED}
            self.printing({"card": facts, "calls": []})
            self.assertEqual(self.answer(card=card)["card"]["fault"] is not None, shown)


class FailingExplainers(Explained):
    def fails(self):
        with self.assertRaises(answers.Failure):
            self.draft(K6, A)
        with self.assertRaises(answers.Failure):
            self.answer(card=SAMPLE[:50])

    def test_programs_that_fail(self):
        truth = json.dumps({"card": {"refusal": 0}, "calls": [{"tag": 16, "line": "14", "cover": [1]}]})
        self.program(f"echo '{truth}'")
        self.assertEqual(self.draft(K6, A), {"status": 14, "cover": [1]})
        for script in (
            f"echo '{truth}'; exit 1",
            f"echo '{truth}'; kill -9 $$",
            f"printf '%s' '{truth}'",
            f"echo '{truth}'; echo",
            f"echo; echo '{truth}'",
            "exit 0",
            "echo",
            "echo no JSON",
            "echo '[]'",
            "echo '{\"card\": {\"refusal\": 0}, \"card\": {\"refusal\": 0}, \"calls\": []}'",
            "printf '\\377\\n'",
            "yes",
            "yes | tr -d '\\n'",
        ):
            self.program(script)
            self.fails()

    def test_programs_of_another_shape(self):
        call = {"tag": 16, "line": "14", "cover": [1]}
        for facts in (
            {"card": {"refusal": 0}},
            {"card": {"refusal": 0}, "calls": [call, call]},
            {"card": {"refusal": 0}, "calls": {}},
            {"card": {"refusal": 0}, "calls": [], "more": 1},
            {"card": 0, "calls": [{**call, "more": 1}]},
            {"card": 0, "calls": [{**call, "cover": [True]}]},
            {"card": 0, "calls": [{**call, "cover": [-1]}]},
            {"card": 0, "calls": [{**call, "cover": ["1"]}]},
            {"card": 0, "calls": [{**call, "line": 14}]},
            {"card": {"refusal": 1, "field": {"index": 4}}, "calls": [14]},
        ):
            self.printing(facts)
            self.fails()

    def test_a_program_that_takes_too_long(self):
        self.program("sleep 60", seconds=0.5)
        begin = time.monotonic()
        self.fails()
        self.assertLess(time.monotonic() - begin, 30)

    def test_a_program_that_is_not_there(self):
        self.gateway = self.explained_by(self.folder / "none")
        self.fails()

    def test_it_is_not_asked_without_need(self):
        self.gateway = self.explained_by(self.folder / "none")
        self.assertEqual(self.draft(A), {"status": 0, "columns": []})
        self.assertEqual(self.draft(A[:24]), {"status": 6})
        self.assertEqual(self.answer(card=b"")["card"]["status"], 5)


class BadRequests(WithGateway):
    def bad(self, body):
        with self.assertRaises(answers.BadRequest) as caught:
            self.gateway.answer(body)
        return str(caught.exception)

    def test_what_is_no_json(self):
        good = json.dumps(request())
        for body in ("", "{", "[", good[:-1], good + "}", good.replace("{", "{\"card\": \"\", ", 1), "\ufeff" + good):
            self.assertIn("not JSON", self.bad(body.encode()))
        for body in (b"\xff", good.encode("utf-16"), b"[" * 100_000, good.replace("null", "NaN").encode(), b"1" * 9999):
            self.assertIn("not JSON", self.bad(body))

    def test_wrong_parts(self):
        draft, call = "00" * 65, {"tag": 16, "value": "00"}
        for part, values in {
            "card": (None, 0, [], "0", "0g", " 00", "00 ", "0x", "\u0660\u0660", "00" * 65536),
            "calls": (None, {}, "", [0], [{}], [{**call, "more": 0}], [{"tag": 16}], [call] * 4097),
            "columns": (None, {}, [0], [{}], [{**column(), "more": 0}], [column()] * 65),
            "draft": (0, [], "0", draft, False),
            "alternatives": (None, "", [None], [0], [draft], ["00"] * 17),
            "states": (None, 1, [0], [256], [-1], [1.0], [True], ["1"], [None], [1] * 17),
        }.items():
            for value in values:
                words = self.bad(json.dumps({**request(), part: value}).encode())
                self.assertTrue(words.startswith(part), words)
        for body in ([], 0, None, "", {}, {**request(), "more": 0}, {"card": ""}):
            self.assertTrue(self.bad(json.dumps(body).encode()).startswith("the request"))

    def test_wrong_calls(self):
        for tag in (0, 1, 15, 20, 21, 22, 23, 24, 272, -1, "16", 16.0, True, None):
            self.assertIn("calls[0].tag", self.bad(json.dumps(request(calls=[{"tag": tag, "value": "00"}])).encode()))
        for tag, value in ((17, "00"), (17, "000000"), (18, ""), (18, "00" * 5), (19, "00" * 8)):
            body = request(calls=[commit(A), {"tag": tag, "value": value}])
            self.assertIn("calls[1].value", self.bad(json.dumps(body).encode()))

    def test_wrong_columns(self):
        for name, values in {"person": (-1, 65536, "1"), "role": (65536,), "origin": (256,), "purpose": (256, True)}.items():
            for value in values:
                body = request(columns=[column(), {**column(), name: value}])
                self.assertIn(f"columns[1].{name}", self.bad(json.dumps(body).encode()))

    def test_the_limits_themselves(self):
        answer = self.answer(
            calls=[commit(bytes(300))] * 100,
            columns=[column(person=65535, role=65535, origin=255, purpose=255)] * 64,
            draft=bytes(64),
            alternatives=[bytes(64)] * 16,
            states=[255] * 16,
        )
        self.assertEqual((answer["draft"], answer["alternatives"]), ({"status": 6}, [6] * 16))
        self.assertEqual(self.answer(card=bytes(65535))["card"]["status"], 2)


PAGE = b"<!doctype html>\n"
PAGES = {"/": ("text/html; charset=utf-8", PAGE), "/app.js": ("text/javascript; charset=utf-8", b"'use strict';\n")}
OPENED = {"card": SAMPLE.hex(), "name": "sample.card", "labels": None}


class WithServer(WithGateway):
    SECONDS = 10.0

    def setUp(self):
        super().setUp()
        quiet = unittest.mock.patch.object(server, "warn", self.warnings.append)
        quiet.start()
        self.addCleanup(quiet.stop)
        self.screen = server.Screen(0, PAGES, OPENED, self.gateway, self.SECONDS)
        thread = threading.Thread(target=self.screen.serve_forever, args=(0.05,))
        thread.start()
        self.addCleanup(self.screen.server_close)
        self.addCleanup(thread.join)
        self.addCleanup(self.screen.shutdown)
        self.port = self.screen.server_port
        self.origin = f"http://127.0.0.1:{self.port}"
        self.sent = {"Content-Type": "application/json", "Origin": self.origin}

    def ask(self, method, path, body=None, headers=None, host=None):
        """The status, the headers and the body of a reply."""
        connection = http.client.HTTPConnection("127.0.0.1", self.port, timeout=20)
        with contextlib.closing(connection):
            connection.putrequest(method, path, skip_host=True, skip_accept_encoding=True)
            for name, value in {"Host": host or f"127.0.0.1:{self.port}", **(headers or {})}.items():
                for one in value if isinstance(value, list) else [value]:
                    connection.putheader(name, one)
            if body is not None and "Content-Length" not in (headers or {}):
                connection.putheader("Content-Length", str(len(body)))
            connection.endheaders(body)
            reply = connection.getresponse()
            return reply.status, reply.headers, reply.read()

    def post(self, body=None, **headers):
        body = json.dumps(request()).encode() if body is None else body
        named = {name.replace("_", "-"): value for name, value in headers.items()}
        sent = {name: value for name, value in {**self.sent, **named}.items() if value is not None}
        return self.ask("POST", "/answer", body, sent)

    def refused(self, reply, status):
        """A refusal says why, and looks like no answer."""
        self.assertEqual(reply[0], status, reply[2])
        self.assertEqual(reply[1]["Content-Type"], "application/json")
        words = json.loads(reply[2])
        self.assertEqual(list(words), ["error"])
        self.assertNotIn("Traceback", words["error"])
        self.guarded(reply)

    def guarded(self, reply):
        for name, value in server.HEADERS.items():
            self.assertEqual(reply[1].get_all(name), [value])

    def raw(self, data, wait=0.0):
        """What comes back for these bytes until the connection is closed."""
        with socket.create_connection(("127.0.0.1", self.port), timeout=20) as connection:
            connection.sendall(data)
            time.sleep(wait)
            connection.shutdown(socket.SHUT_WR)
            return b"".join(iter(lambda: connection.recv(65536), b""))


class Serving(WithServer):
    def test_pages(self):
        for path, (kind, data) in PAGES.items():
            reply = self.ask("GET", path)
            self.assertEqual((reply[0], reply[1]["Content-Type"], reply[2]), (200, kind, data))
            self.guarded(reply)

    def test_the_policies(self):
        headers = self.ask("GET", "/")[1]
        policy = {part.strip() for part in headers["Content-Security-Policy"].split(";")}
        self.assertEqual(
            policy,
            {
                *("default-src 'none'", "script-src 'self'", "style-src 'self'", "img-src 'self'", "connect-src 'self'"),
                *("base-uri 'none'", "form-action 'none'", "frame-ancestors 'none'"),
            },
        )
        self.assertEqual(headers["X-Content-Type-Options"], "nosniff")
        self.assertEqual(headers["Referrer-Policy"], "no-referrer")
        self.assertEqual(headers["Cross-Origin-Resource-Policy"], "same-origin")
        self.assertEqual(headers["Cross-Origin-Opener-Policy"], "same-origin")
        self.assertEqual(headers["Cache-Control"], "no-store")
        self.assertEqual((headers["Server"], headers["Access-Control-Allow-Origin"]), ("screen", None))

    def test_the_opened_card(self):
        reply = self.ask("GET", "/opened")
        self.assertEqual((reply[0], reply[1]["Content-Type"], json.loads(reply[2])), (200, "application/json", OPENED))
        self.guarded(reply)

    def test_an_answer(self):
        body = request(calls=[commit(A)], columns=[column()], draft=K5)
        reply = self.post(json.dumps(body).encode())
        self.assertEqual((reply[0], reply[1]["Content-Type"]), (200, "application/json"))
        self.guarded(reply)
        answer = json.loads(reply[2])
        self.assertEqual(answer["columns"], [{"status": 0, "decisions": [DENY_4, DENY_A, DENY_A]}])
        self.assertEqual((answer["draft"]["status"], answer["draft"]["number"]), (13, 1))

    def test_either_name_of_this_machine(self):
        for name in ("127.0.0.1", "localhost"):
            sent = {**self.sent, "Origin": f"http://{name}:{self.port}", "Sec-Fetch-Site": "same-origin"}
            body = json.dumps(request()).encode()
            self.assertEqual(self.ask("POST", "/answer", body, sent, f"{name}:{self.port}")[0], 200)
            self.assertEqual(self.ask("GET", "/opened", headers={"Origin": sent["Origin"]}, host=f"{name}:{self.port}")[0], 200)

    def test_a_type_with_parameters(self):
        for kind in ("application/json; charset=utf-8", "application/json;charset=UTF-8", "Application/JSON"):
            self.assertEqual(self.post(Content_Type=kind)[0], 200)

    def test_many_at_once(self):
        bodies = [
            request(calls=[commit(A)], columns=[column(), column(role=3)], draft=K6),
            request(columns=[column()] * 8, draft=A, states=[1, 2, 3]),
            request(card=SAMPLE[:50]),
            request(calls=[TOKEN, advance(1029)]),
        ]
        replies = [self.post(json.dumps(body).encode()) for body in bodies]
        self.assertEqual([reply[0] for reply in replies], [200] * len(bodies))
        alone = [reply[2] for reply in replies]
        together, lock = [], threading.Lock()

        def work(place):
            for turn in range(6):
                which = (place + turn) % len(bodies)
                reply = self.post(json.dumps(bodies[which]).encode())
                with lock:
                    together.append(reply[2] == alone[which])

        threads = [threading.Thread(target=work, args=(place,)) for place in range(8)]
        for thread in threads:
            thread.start()
        for thread in threads:
            thread.join()
        self.assertEqual(together, [True] * 48)


class Refusing(WithServer):
    def test_another_host(self):
        for host in ("evil.example", f"evil.example:{self.port}", "127.0.0.1", "127.0.0.1:1", f"[::1]:{self.port}", "localhost"):
            self.refused(self.ask("GET", "/", host=host), 403)
            self.refused(self.ask("GET", "/opened", host=host), 403)
            self.refused(self.ask("POST", "/answer", json.dumps(request()).encode(), self.sent, host), 403)

    def test_no_host_or_two(self):
        ours = f"127.0.0.1:{self.port}"
        self.assertIn(b" 403 ", self.raw(b"GET / HTTP/1.1\r\n\r\n"))
        self.assertIn(b" 403 ", self.raw(f"GET / HTTP/1.1\r\nHost: {ours}\r\nHost: evil.example\r\n\r\n".encode()))
        self.assertIn(b"error", self.raw(f"GET /\r\nHost: {ours}\r\n\r\n".encode()))
        self.assertIn(b" 200 ", self.raw(f"GET / HTTP/1.1\r\nHost: {ours}\r\n\r\n".encode()))

    def test_another_origin(self):
        for origin in (
            None,
            "null",
            "",
            "http://evil.example",
            f"http://evil.example:{self.port}",
            "http://127.0.0.1",
            f"https://127.0.0.1:{self.port}",
            f"http://localhost:{self.port}",
            f"{self.origin}/",
            [self.origin, self.origin],
        ):
            self.refused(self.post(Origin=origin), 403)
            if origin is not None:
                self.refused(self.ask("GET", "/", headers={"Origin": origin}), 403)
                self.refused(self.ask("GET", "/opened", headers={"Origin": origin}), 403)

    def test_another_site(self):
        for site in ("cross-site", "same-site", "", ["same-origin", "cross-site"]):
            self.refused(self.post(Sec_Fetch_Site=site), 403)
            self.refused(self.ask("GET", "/", headers={"Sec-Fetch-Site": site}), 403)
        self.assertEqual(self.ask("GET", "/", headers={"Sec-Fetch-Site": "none"})[0], 200)

    def test_another_type(self):
        for kind in (None, "", "text/plain", "application/json5", "application/x-www-form-urlencoded", "text/json, application/json"):
            self.refused(self.post(Content_Type=kind), 415)

    def test_unknown_paths(self):
        for path in (
            *("/../README.md", "/..%2fREADME.md", "/%2e%2e/README.md", "/ui/server.py", "/server.py", "/index.html/"),
            *("/?", "/app.js?x", "/app.js/", "//app.js/", "/etc/passwd", "/.", "app.js", "*", "/samples/", f"{self.origin}/"),
        ):
            self.refused(self.ask("GET", path), 404)
            self.refused(self.ask("POST", path, b"{}", self.sent), 404)

    def test_methods(self):
        reply = self.ask("GET", "/answer")
        self.refused(reply, 405)
        self.assertEqual(reply[1]["Allow"], "POST")
        for path in ("/", "/opened", "/app.js"):
            reply = self.ask("POST", path, b"{}", self.sent)
            self.refused(reply, 405)
            self.assertEqual(reply[1]["Allow"], "GET")
        for method in ("PUT", "DELETE", "PATCH", "OPTIONS", "TRACE", "CONNECT", "get", "NONE"):
            self.refused(self.ask(method, "/"), 405)
        status, _, body = self.ask("HEAD", "/")
        self.assertEqual((status, body), (405, b""))

    def test_bodies_without_a_length(self):
        self.refused(self.ask("POST", "/answer", headers=self.sent), 411)
        self.refused(self.post(b"0\r\n\r\n", Transfer_Encoding="chunked", Content_Length="5"), 411)

    def test_wrong_lengths(self):
        for length in ("", "-1", "+2", "0x2", "2.0", "\xb2", ["2", "2"], "1" * 21):
            self.refused(self.post(b"{}", Content_Length=length), 400)

    def test_large_bodies(self):
        self.refused(self.post(b" " * (1 << 20) + b"{"), 413)
        self.refused(self.post(b"{}", Content_Length=str((1 << 20) + 1)), 413)
        self.refused(self.post(b"{}", Content_Length="9" * 20), 413)
        self.refused(self.post(b" " * (1 << 20)), 400)

    def test_bad_requests(self):
        for body in (b"", b"{", b"[]", json.dumps({**request(), "card": 0}).encode(), b"[" * (1 << 20)):
            self.refused(self.post(body), 400)

    def test_a_body_that_ends_early(self):
        head = f"POST /answer HTTP/1.1\r\nHost: 127.0.0.1:{self.port}\r\nOrigin: {self.origin}\r\n"
        reply = self.raw(f"{head}Content-Type: application/json\r\nContent-Length: 9\r\n\r\n{{}}".encode())
        self.assertIn(b" 400 ", reply)

    def test_what_is_not_http(self):
        for data in (b"\x00\x01\x02\r\n\r\n", b"GET / HTTP/9.9\r\n\r\n", b"GET\r\n\r\n", b"GET / HTTP/1.1 x\r\n\r\n"):
            reply = self.raw(data)
            self.assertNotIn(PAGE, reply)
            self.assertNotIn(b"<html", reply.lower())
        self.assertIn(b" 414 ", self.raw(b"GET /" + b"x" * 70000 + b" HTTP/1.1\r\n\r\n"))
        self.assertIn(b" 431 ", self.raw(b"GET / HTTP/1.1\r\n" + b"X: y\r\n" * 200 + b"\r\n"))
        self.assertEqual(self.ask("GET", "/")[0], 200)

    def test_failures(self):
        for error in (answers.Failure("the answers do not agree"), ValueError("a secret"), MemoryError()):
            with unittest.mock.patch.object(self.gateway, "answer", side_effect=error):
                reply = self.post()
            self.refused(reply, 500)
            self.assertNotIn(b"secret", reply[2])
        self.assertEqual(self.warnings, ["the answers do not agree", "the screen fails: ValueError", "the screen fails: MemoryError"])


class Waiting(WithServer):
    SECONDS = 1.0

    def slow(self, pieces, pause):
        """The reply to a body that comes in pieces."""
        head = f"POST /answer HTTP/1.1\r\nHost: 127.0.0.1:{self.port}\r\nOrigin: {self.origin}\r\n"
        with socket.create_connection(("127.0.0.1", self.port), timeout=20) as connection:
            connection.sendall(f"{head}Content-Type: application/json\r\nContent-Length: 1000\r\n\r\n".encode())
            with contextlib.suppress(ConnectionError):
                for _ in range(pieces):
                    connection.sendall(b" ")
                    time.sleep(pause)
            return b"".join(iter(lambda: connection.recv(65536), b""))

    def test_a_body_that_does_not_come(self):
        self.assertIn(b" 408 ", self.slow(1, 0))

    def test_a_body_that_comes_slowly(self):
        begin = time.monotonic()
        self.assertIn(b" 408 ", self.slow(20, 0.1))
        self.assertLess(time.monotonic() - begin, 20)

    def test_connections_that_say_nothing(self):
        with contextlib.ExitStack() as stack:
            for _ in range(server.WORKERS):
                stack.enter_context(socket.create_connection(("127.0.0.1", self.port)))
            time.sleep(0.1)
            begin = time.monotonic()
            self.assertEqual(self.ask("GET", "/")[0], 200)
            waited = time.monotonic() - begin
        self.assertGreater(waited, 0.1)

    def test_the_number_of_workers(self):
        most, now, lock = [0], [0], threading.Lock()

        def answer(_):
            with lock:
                now[0] += 1
                most[0] = max(most[0], now[0])
            time.sleep(0.1)
            with lock:
                now[0] -= 1
            return {}

        with unittest.mock.patch.object(self.gateway, "answer", answer):
            threads = [threading.Thread(target=self.post) for _ in range(2 * server.WORKERS)]
            for thread in threads:
                thread.start()
            for thread in threads:
                thread.join()
        self.assertIn(most[0], range(2, server.WORKERS + 1))


class Opening(unittest.TestCase):
    """What is read at the start."""

    def setUp(self):
        folder = tempfile.TemporaryDirectory()
        self.addCleanup(folder.cleanup)
        self.folder = Path(folder.name)
        self.card = self.folder / "some.card"
        self.card.write_bytes(SAMPLE)

    def labels(self, value):
        (self.folder / "some.labels.json").write_text(value if isinstance(value, str) else json.dumps(value))

    def test_a_card_with_and_without_labels(self):
        opened = {"card": SAMPLE.hex(), "name": "some.card", "labels": None}
        self.assertEqual(server.read_opened(self.card), opened)
        names = {"minuteZero": "2026-11-16T00:00", "persons": {"7": {"name": "P"}, "600": {"name": "Q", "role": 1}}}
        names.update(roles={"1": {"one": "a", "many": "b", "head": "c"}}, records={"0": "File"}, marks={})
        self.labels(names)
        self.assertEqual(server.read_opened(self.card), {**opened, "labels": names})
        other = self.folder / "some.bin"
        other.write_bytes(SAMPLE)
        self.assertEqual(server.read_opened(other)["labels"], None)

    def test_wrong_labels(self):
        for wrong in ("", "[]", "null", "{", '{"records": {}, "records": {}}', " " * (1 << 20) + "{}", "{}" + " " * (1 << 20) + "x"):
            self.labels(wrong)
            with self.assertRaises(server.Unusable, msg=wrong[:20]):
                server.read_opened(self.card)

    def test_cards_that_cannot_be_read(self):
        for path in (self.folder / "none.card", self.folder, Path("")):
            with self.assertRaises(server.Unusable):
                server.read_opened(path)

    def test_a_long_file_is_taken_as_cardcheck_does(self):
        self.card.write_bytes(bytes(70000))
        self.assertEqual(len(server.read_opened(self.card)["card"]), 2 * 65535)

    def test_the_pages(self):
        for name in (*server.PAGES, "other.js"):
            (self.folder / name).write_text(name)
        pages = server.read_pages(self.folder)
        self.assertEqual(pages.keys(), {"/", *(f"/{name}" for name in server.PAGES if name != "index.html")})
        self.assertEqual(pages["/"], ("text/html; charset=utf-8", b"index.html"))
        self.assertEqual(pages["/app.js"], ("text/javascript; charset=utf-8", b"app.js"))
        self.assertEqual(pages["/style.css"], ("text/css; charset=utf-8", b"style.css"))
        self.assertEqual(pages["/icon.svg"], ("image/svg+xml", b"icon.svg"))

    def test_pages_that_are_not_there(self):
        for missing in server.PAGES:
            for name in server.PAGES:
                (self.folder / name).write_text(name)
            (self.folder / missing).unlink()
            with self.assertRaisesRegex(server.Unusable, missing):
                server.read_pages(self.folder)

    def test_the_page_names_what_is_served(self):
        pages = server.read_pages(TOP / "ui")
        html = pages["/"][1].decode()
        named = re.findall('(?:href|src)="([^"#]+)"', html)
        self.assertEqual(sorted(named), ["app.js", "icon.svg", "style.css"])
        self.assertLessEqual({f"/{name}" for name in named}, pages.keys())

    def test_the_sample_and_its_labels(self):
        opened = server.read_opened(TOP / "samples" / "visit.card")
        ledger = newelsage.Ledger(newelsage.Library(LIBRARY))
        self.assertTrue(ledger.read(bytes.fromhex(opened["card"])).accepted)
        written = answers.written_by(ledger)
        labels = opened["labels"]
        self.assertIn(str(written.patient), labels["persons"])
        self.assertEqual(set(labels["roles"]), {str(role) for role in range(len(written.roles))})
        self.assertEqual(set(labels["records"]), {str(record) for record in range(len(written.records))})
        self.assertLessEqual({str(record.author) for record in written.records}, set(labels["persons"]))
        self.assertTrue(all(person.get("role", 0) < len(written.roles) for person in labels["persons"].values()))


class Commands(unittest.TestCase):
    """ui/server.py and ./screen as they are started."""

    SERVER = [sys.executable, "-B", TOP / "ui" / "server.py", "--library", LIBRARY, "--checker", CHECKER]

    @classmethod
    def setUpClass(cls):
        # A test in the background of a script may be started with Ctrl-C ignored, and would hand that on to the commands.
        signal.signal(signal.SIGINT, signal.default_int_handler)

    @contextlib.contextmanager
    def started(self, *command):
        """The port that a command serves; the command is ended afterwards."""
        process = subprocess.Popen(
            command, stdout=subprocess.PIPE, stderr=subprocess.PIPE, text=True, start_new_session=True
        )
        try:
            line = process.stdout.readline()
            self.assertRegex(line, r"^screen: http://127\.0\.0\.1:[0-9]+/\n$")
            yield process, int(line.rstrip("/\n").rsplit(":", 1)[1])
        finally:
            process.terminate()
            with contextlib.suppress(subprocess.TimeoutExpired):
                process.wait(20)
            with contextlib.suppress(ProcessLookupError):
                os.killpg(process.pid, signal.SIGKILL)
            process.communicate()

    def opened(self, port):
        with contextlib.closing(http.client.HTTPConnection("127.0.0.1", port, timeout=20)) as connection:
            connection.request("GET", "/opened")
            reply = connection.getresponse()
            self.assertEqual(reply.status, 200)
            return json.loads(reply.read())

    def refused(self, *command):
        result = subprocess.run(command, capture_output=True, text=True, timeout=60, check=False)
        self.assertEqual((result.returncode, result.stdout), (2, ""), result.stderr)
        self.assertNotIn("Traceback", result.stderr)
        return result.stderr

    def test_the_server(self):
        with self.started(*self.SERVER, "--port", "0", TOP / "samples" / "sample.card") as (process, port):
            self.assertEqual(self.opened(port)["name"], "sample.card")
            process.send_signal(signal.SIGINT)
            self.assertEqual(process.wait(20), 0)
            self.assertEqual(process.stderr.read(), "")

    def test_a_port_that_is_taken(self):
        with socket.create_server(("127.0.0.1", 0)) as taken:
            port = taken.getsockname()[1]
            words = self.refused(*self.SERVER, "--port", str(port), TOP / "samples" / "sample.card")
            by_screen = self.refused(TOP / "screen", "--no-browser", "--port", str(port))
        self.assertIn(f"port {port} cannot be used", words)
        self.assertIn(f"port {port} cannot be used", by_screen)

    def test_what_the_server_cannot_be_started_with(self):
        card = TOP / "samples" / "sample.card"
        self.assertIn("cannot be read", self.refused(*self.SERVER, "no-such.card"))
        self.assertIn("cannot be loaded", self.refused(*self.SERVER, "--library", card, card))
        self.assertIn("cannot be run", self.refused(*self.SERVER, "--checker", card, card))
        for port in ("80", "65536", "-1", "x"):
            self.refused(*self.SERVER, "--port", port, card)
        self.refused(*self.SERVER)

    def test_the_screen(self):
        visit, sample = (TOP / "samples" / name for name in ("visit.card", "sample.card"))
        for arguments, card in (((), visit), ((sample,), sample)):
            with self.started(TOP / "screen", *arguments, "--no-browser", "--port", "0") as (process, port):
                self.assertEqual(self.opened(port)["card"], card.read_bytes().hex())
                process.terminate()
                self.assertEqual(process.wait(20), 143)
                with self.assertRaises(ConnectionRefusedError):
                    socket.create_connection(("127.0.0.1", port), timeout=5)

    def test_the_screen_ends_by_ctrl_c(self):
        with self.started(TOP / "screen", "--no-browser", "--port", "0") as (process, port):
            os.killpg(process.pid, signal.SIGINT)
            self.assertEqual(process.wait(20), 130)
            with self.assertRaises(ConnectionRefusedError):
                socket.create_connection(("127.0.0.1", port), timeout=5)

    def test_a_refused_card_is_opened_all_the_same(self):
        with tempfile.NamedTemporaryFile(suffix=".card") as card:
            card.write(SAMPLE[:50])
            card.flush()
            with self.started(TOP / "screen", card.name, "--no-browser", "--port", "0") as (_, port):
                self.assertEqual(self.opened(port), {"card": SAMPLE[:50].hex(), "name": Path(card.name).name, "labels": None})

    def test_what_the_screen_cannot_be_started_with(self):
        self.assertIn("cannot be read", self.refused(TOP / "screen", "no-such.card", "--no-browser"))
        self.assertIn("cannot be read", self.refused(TOP / "screen", TOP, "--no-browser"))
        for arguments in (("--port",), ("--other",), ("a.card", "b.card")):
            self.assertIn("usage", self.refused(TOP / "screen", *arguments))


if __name__ == "__main__":
    sys.exit(report(sys.modules[__name__]))
