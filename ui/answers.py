"""What the screen's endpoint answers, without HTTP.

A query has a card, the calls made so far and what the page wants to see; nothing is kept between queries. Every answer comes from the
library. What the words need beyond that (a request that two directives match, the directives that cover a draft, whose records they are,
the place of a card's fault) comes from the explaining program, and is shown only where the library's own answers bear it out.
"""

import json
import os
import re
import signal
import struct
import subprocess
import sys
import tempfile
import threading
from pathlib import Path
from typing import NamedTuple, Optional

sys.path.insert(0, str(Path(__file__).resolve().parent.parent / "bindings" / "python"))
import newelsage
from newelsage import Ledger, Status, Tag

# The limits of a query.
CARD_BYTES = 65535
CALLS = 4096
CALL_BYTES = 65535
COLUMNS = 64
DRAFT_BYTES = 64
ALTERNATIVES = 16
STATES = 16

LAST_MINUTE = 2**32 - 1
HEXADECIMAL = re.compile("([0-9a-fA-F]{2})*")


class BadRequest(Exception):
    """The query cannot be used; the words say why."""


class Failure(Exception):
    """There is no answer: the library or the explaining program fails, or the answers do not agree with each other."""


# The query


class Call(NamedTuple):
    tag: int
    value: bytes


class Column(NamedTuple):
    """Who asks, from where and why."""

    person: int
    role: int
    origin: int
    purpose: int


class Query(NamedTuple):
    """What the page asks the endpoint."""

    card: bytes
    calls: list
    columns: list
    draft: Optional[bytes]
    alternatives: list
    states: list


def query_of(body):
    """The query that the bytes are; raises BadRequest where they are none."""
    try:
        value = strict_json(body.decode("utf-8"))
    except (ValueError, RecursionError) as error:
        raise BadRequest(f"the body is not JSON: {error}") from error
    members(value, Query._fields, "the request")
    draft = value["draft"]
    return Query(
        card=hexadecimal(value["card"], CARD_BYTES, "card"),
        calls=items(value["calls"], CALLS, "calls", call_of),
        columns=items(value["columns"], COLUMNS, "columns", column_of),
        draft=None if draft is None else hexadecimal(draft, DRAFT_BYTES, "draft"),
        alternatives=items(value["alternatives"], ALTERNATIVES, "alternatives", alternative_of),
        states=items(value["states"], STATES, "states", states_of),
    )


def strict_json(text):
    """The value of a JSON text; raises ValueError also where a key is there twice or a number is none."""
    return json.loads(text, object_pairs_hook=without_repeats, parse_constant=no_number)


def without_repeats(pairs):
    found = dict(pairs)
    if len(found) != len(pairs):
        raise ValueError("a key is there twice")
    return found


def no_number(name):
    raise ValueError(f"{name} is no number")


def members(value, names, what):
    if type(value) is not dict or value.keys() != set(names):
        raise BadRequest(f"{what} is not an object of {', '.join(names)}")


def items(value, most, what, item_of):
    if type(value) is not list:
        raise BadRequest(f"{what} is not a list")
    if len(value) > most:
        raise BadRequest(f"{what} has more than {most} items")
    return [item_of(item, f"{what}[{place}]") for place, item in enumerate(value)]


def hexadecimal(value, most, what):
    if type(value) is not str or not HEXADECIMAL.fullmatch(value):
        raise BadRequest(f"{what} is not hexadecimal, two digits a byte")
    if len(value) > 2 * most:
        raise BadRequest(f"{what} has more than {most} bytes")
    return bytes.fromhex(value)


def number(value, least, most, what):
    if type(value) is not int or not least <= value <= most:
        raise BadRequest(f"{what} is not a number from {least} to {most}")
    return value


def call_of(value, what):
    members(value, Call._fields, what)
    tag = number(value["tag"], int(Tag.COMMIT), int(Tag.ISSUE), f"{what}.tag")
    return Call(tag, hexadecimal(value["value"], CALL_BYTES, f"{what}.value"))


def column_of(value, what):
    members(value, Column._fields, what)
    limits = Column(person=65535, role=65535, origin=255, purpose=255)
    return Column(*(number(value[name], 0, most, f"{what}.{name}") for name, most in limits._asdict().items()))


def alternative_of(value, what):
    return hexadecimal(value, DRAFT_BYTES, what)


def states_of(value, what):
    return number(value, 1, 255, what)


# The bytes of a card


class Field(NamedTuple):
    offset: int
    tag: int
    value: bytes
    end: int


class Record(NamedTuple):
    parent: int
    author: int
    origins: int
    sensitivities: int
    type: int
    labels: int


class Directive(NamedTuple):
    number: int
    effect: int
    kind: int
    subject: int
    subject_origins: int
    record: int
    reach: int
    po: int
    ps: int
    pt: int
    purposes: int
    start: int
    until: int

    def encoded(self):
        return struct.pack(DIRECTIVE, *self)

    def shown(self):
        return {"from" if name == "start" else name: part for name, part in self._asdict().items()}


DENY, PERMIT = 0, 1
PERSON, ROLE = 0, 1
HEAD = ">BHI"
RECORD = ">BHHHBH"
DIRECTIVE = ">HBBHHBBHHBHII"
FULL_FILTERS = {"reach": 0, "po": 0xFFFF, "ps": 0xFFFF, "pt": 0xFF}

# Roles and a record that are as short as they can be: they make a card of a head.
SHORTEST_REST = bytes.fromhex("020001 00" "03000a 00 0000 0001 0001 00 0000")
HEAD_LENGTH = 10


def directive_of(value):
    return Directive(*struct.unpack(DIRECTIVE, value))


def fields(card):
    """The fields of a card; raises ValueError where one does not stand whole."""
    offset = 0
    while offset < len(card):
        start = offset + 3
        end = start + int.from_bytes(card[offset + 1 : start], "big")
        if start > len(card) or end > len(card):
            raise ValueError("a field does not stand whole")
        yield Field(offset, card[offset], card[start:end], end)
        offset = end


def spans(card):
    """Where each field of a card starts and ends; the card may end within the last one."""
    offset = 0
    while offset < len(card):
        end = min(offset + 3 + int.from_bytes(card[offset + 1 : offset + 3], "big"), len(card))
        yield offset, end
        offset = end


class Written(NamedTuple):
    """What a card says that the library has written."""

    card: bytes
    patient: int
    clock: int
    roles: list
    records: list
    directives: list
    register: bytes

    def shown(self, tokens):
        return {
            "patient": self.patient,
            "clock": self.clock,
            "roles": self.roles,
            "records": [record._asdict() for record in self.records],
            "directives": [directive.shown() for directive in self.directives],
            "tokens": tokens,
        }

    def with_directives(self, directives):
        """The card with these directives in the place of its own."""
        return self.register + b"".join(b"\x04\x00\x19" + directive.encoded() for directive in directives)

    def at_minute_0(self):
        """The card without directives, its clock at minute 0."""
        return self.register[: HEAD_LENGTH - 4] + bytes(4) + self.register[HEAD_LENGTH:]


def written_of(card):
    try:
        head, roles, *rest = fields(card)
        records = [Record(*struct.unpack(RECORD, field.value)) for field in rest if field.tag == 3]
        directives = [directive_of(field.value) for field in rest if field.tag == 4]
        edition, patient, clock = struct.unpack(HEAD, head.value)
    except (ValueError, struct.error) as error:
        raise Failure("the card that the library writes cannot be read") from error
    tags = bytes([head.tag, roles.tag, *(field.tag for field in rest)])
    if edition != 2 or not re.fullmatch(rb"\x01\x02\x03+\x04*", tags):
        raise Failure("the card that the library writes is not as its format says")
    register_end = rest[len(records) - 1].end
    return Written(card, patient, clock, list(roles.value), records, directives, card[:register_end])


# The library's answers


class Decision(NamedTuple):
    effect: int
    basis: int
    number: Optional[int]


def accepted(answer, what, count):
    """The values of an answer that cannot be a refusal."""
    if not answer.accepted or len(answer.values) != count:
        raise Failure(f"the library does not answer {what}")
    return answer.values


def decision_of(answer):
    with_number = len(answer.values) > 1 and answer.values[1] == 3
    effect, basis, *number_of_3 = accepted(answer, "a decision", 3 if with_number else 2)
    if effect not in (DENY, PERMIT) or basis not in (1, 2, 3, 4):
        raise Failure("the library answers a decision that there is not")
    return Decision(effect, basis, number_of_3[0] if number_of_3 else None)


def decisions_of(ledger, column, records, directives):
    """The decisions for each record, or None where the register does not have such a requester. The directives are the active ones."""
    answers = [ledger.decide(column.person, column.role, column.origin, i, column.purpose) for i in range(records)]
    if all(answer.status == Status.REQUEST_OUT_OF_RANGE for answer in answers):
        return None
    decisions = [decision_of(answer) for answer in answers]
    effects = {directive.number: directive.effect for directive in directives}
    if not all(is_borne_out(decision, effects) for decision in decisions):
        raise Failure("the library answers a decision that its basis does not bear out")
    return decisions


def is_borne_out(decision, effects):
    """Whether the effect is that of the basis: the patient and the author may read, a directive says what it says."""
    if decision.basis == 3:
        return effects.get(decision.number) == decision.effect
    return decision.basis == 4 or decision.effect == PERMIT


def shown_column(decisions, **more):
    if decisions is None:
        return {"status": Status.REQUEST_OUT_OF_RANGE}
    return {"status": 0, **more, "decisions": [decision._asdict() for decision in decisions]}


def record_set(answer, what, records):
    """The records of two words, and their count."""
    low, high, count = accepted(answer, what, 3)
    found = [record for record in range(128) if (low | high << 64) >> record & 1]
    if count != len(found) or (found and found[-1] >= records):
        raise Failure(f"the words and the count of {what} do not agree")
    return {"records": found, "count": count}


def written_by(ledger):
    """What the ledger holds, from the card that it writes."""
    answer = ledger.write()
    accepted(answer, "a write", 1)
    written = written_of(answer.data)
    counts = ledger.counts()
    if counts[:4] != (written.patient, written.clock, len(written.records), len(written.directives)):
        raise Failure("the written card and the counts do not agree")
    return written


def tokens_of(ledger, records):
    return [
        {**token._asdict(), **record_set(ledger.brief(token.number, token.person), "a brief", records)}
        for token in ledger.tokens()
    ]


def preview_of(ledger, column, draft, before, after):
    """What the draft changes for a requester; the preview has to agree with the decisions before and after."""
    answer = ledger.preview(*column, draft)
    if before is None or after is None:
        if (before, after, answer.status) != (None, None, Status.REQUEST_OUT_OF_RANGE):
            raise Failure("the preview and the decisions do not agree")
        return shown_column(None)
    changes = record_set(answer, "a preview", len(before))
    different = [place for place, (old, new) in enumerate(zip(before, after)) if old.effect != new.effect]
    if changes["records"] != different:
        raise Failure("the preview and the decisions do not agree")
    return shown_column(after, changes=different, count=changes["count"])


# The explaining program

REQUEST = {
    "person": 65535,
    "role": 65535,
    "origin": 255,
    "record": 255,
    "purpose": 255,
    "minute": LAST_MINUTE,
    "any_person": bool,
}
FIELD = {
    "index": CARD_BYTES,
    "tag": (255, None),
    "offset": CARD_BYTES,
    "end": CARD_BYTES,
    "byte": (CARD_BYTES, None),
    "words": str,
}
# What the page takes over as a sentence.
PLAIN_WORDS = re.compile("[ -~]{1,300}")
# What a refusal adds to the facts of a card's directive and of a draft.
REASONS = {
    Status.BREAKS_BASELINE: {"patient": bool, "records": [255]},
    Status.CONFLICT: {"number": 65535, "request": (REQUEST, None)},
    Status.REDUNDANT: {"cover": ([65535], None)},
}


def fits(value, shape):
    """Whether a JSON value has a shape: a dict of just these keys, a list of one kind of items, one of several shapes in a tuple,
    a type, None, or a number from 0 to a limit."""
    if isinstance(shape, dict):
        return type(value) is dict and value.keys() == shape.keys() and all(fits(value[key], shape[key]) for key in shape)
    if isinstance(shape, list):
        return type(value) is list and all(fits(item, shape[0]) for item in value)
    if isinstance(shape, tuple):
        return any(fits(value, one) for one in shape)
    if shape is None:
        return value is None
    if isinstance(shape, type):
        return type(value) is shape
    return type(value) is int and 0 <= value <= shape


def fits_card(facts):
    refusal = facts.get("refusal")
    if refusal == 0:
        return fits(facts, {"refusal": 0})
    shape = {"refusal": Status.CONFLICT, "field": (FIELD, None)}
    return type(refusal) is int and fits(facts, {**shape, **REASONS.get(refusal, {})})


def fits_call(facts):
    if type(facts) is not dict or type(facts.get("line")) is not str:
        return False
    refusal = re.match("[0-9]{1,3}", facts["line"])
    return fits(facts, {"tag": 255, "line": str, **REASONS.get(int(refusal[0]) if refusal else 0, {})})


class Explainer:
    """The program that gives the facts behind the words: `PROGRAM facts -`, with a replay on standard input."""

    OUTPUT = 1 << 20

    def __init__(self, program, seconds=10.0):
        self.program = os.path.abspath(program)
        self.seconds = seconds

    def card(self, card):
        """The facts of a card that is refused."""
        return self._facts(card, [])[0]

    def draft(self, card, draft):
        """The facts of a draft that is committed after the card is read."""
        return self._facts(card, [Call(Tag.COMMIT, draft)])[1][0]

    def _facts(self, card, calls):
        """The facts of a card, and those of each call."""
        replay = len(card).to_bytes(2, "big") + card
        for call in calls:
            replay += bytes([call.tag]) + len(call.value).to_bytes(2, "big") + call.value
        try:
            facts = strict_json(self._output(replay).decode("ascii"))
        except (ValueError, RecursionError) as error:
            raise Failure("the explaining program's output is not JSON") from error
        if not fits(facts, {"card": dict, "calls": list}) or len(facts["calls"]) != len(calls):
            raise Failure("the explaining program's output cannot be used")
        if not fits_card(facts["card"]) or not all(map(fits_call, facts["calls"])):
            raise Failure("the explaining program's output cannot be used")
        return facts["card"], facts["calls"]

    def _output(self, replay):
        """What the program prints: one line."""
        try:
            with tempfile.TemporaryFile() as source:
                source.write(replay)
                source.seek(0)
                output, status = self._run(source)
        except OSError as error:
            raise Failure(f"the explaining program cannot be run: {error.strerror}") from error
        if status != 0:
            raise Failure(f"the explaining program ends with status {status}")
        if len(output) > self.OUTPUT or output.find(b"\n") != len(output) - 1:
            raise Failure("the explaining program's output is not one line")
        return output

    def _run(self, source):
        process = subprocess.Popen(
            [self.program, "facts", "-"], stdin=source, stdout=subprocess.PIPE, start_new_session=True
        )
        timer = threading.Timer(self.seconds, stop, [process])
        timer.start()
        try:
            with process.stdout:
                output = process.stdout.read(self.OUTPUT + 1)
            if len(output) > self.OUTPUT:
                stop(process)
            return output, process.wait()
        finally:
            timer.cancel()


def stop(process):
    """Kills a program and what it started, if it has not ended."""
    if process.returncode is None:
        try:
            os.killpg(process.pid, signal.SIGKILL)
        except ProcessLookupError:
            pass


# The checks of what the explaining program says


class Trial:
    """Tries directives on ledgers with the register and the clock of a written card, and chosen directives."""

    def __init__(self, library, written):
        self.library = library
        self.written = written

    def commit(self, active, draft):
        """The answer to a draft where these directives alone are active."""
        ledger = Ledger(self.library)
        accepted(ledger.read(self.written.with_directives(active)), "a card", 2)
        return ledger.commit(draft.encoded())

    def refuses(self, active, draft, status):
        return self.commit(active, draft).status == status

    def accepts(self, active, draft):
        return self.refuses(active, draft, Status.ACCEPTED)

    def both_match(self, draft, named, request):
        """Whether the draft and the active directive both match the request. A directive that matches just such requests is covered by
        each of them, and of the draft's effect it conflicts with the active one."""
        if request["minute"] == LAST_MINUTE or request["any_person"] != (draft.kind == named.kind == ROLE):
            return False
        if any(one.kind == PERSON and one.subject != request["person"] for one in (draft, named)):
            return False
        if request["role"] >= len(self.written.roles):
            return False
        free = free_number(draft.number, named.number)
        like_draft, like_named = (narrowed_to_request(one, request, free) for one in (draft, named))
        conflict = self.commit([named], like_draft)
        return (
            (conflict.status, conflict.values) == (Status.CONFLICT, (named.number,))
            and self.refuses([named], like_named, Status.REDUNDANT)
            and self.accepts([], draft)
            and self.refuses([draft], like_draft, Status.REDUNDANT)
        )

    def covered(self, draft, cover):
        """Whether the active directives of these numbers make the draft redundant, and each is needed for it."""
        active = [directive for directive in self.written.directives if directive.number in cover]
        if sorted(cover) != sorted(directive.number for directive in active):
            return False
        without_one = [active[:place] + active[place + 1 :] for place in range(len(active))]
        return self.refuses(active, draft, Status.REDUNDANT) and all(self.accepts(few, draft) for few in without_one)

    def protected_records(self, draft):
        """The records that a deny of one person selects and must not, or None where that cannot be told."""
        permit = draft._replace(effect=PERMIT)
        if not self.accepts([], permit):
            return None
        return [record for record in range(len(self.written.records)) if self._protects(draft, permit, record)]

    def _protects(self, draft, permit, record):
        """Whether the draft breaks the baseline on this record alone, and selects it."""
        on_record = {**FULL_FILTERS, "record": record, "number": free_number(draft.number)}
        return self.refuses([], draft._replace(**on_record), Status.BREAKS_BASELINE) and self.refuses(
            [permit], permit._replace(**on_record), Status.REDUNDANT
        )


def free_number(*taken):
    return next(number for number in range(len(taken) + 1) if number not in taken)


def narrowed_to_request(directive, request, number):
    """A directive of the same effect that matches this request, and others only with another person (role, where it names a person)."""
    return directive._replace(
        **FULL_FILTERS,
        number=number,
        subject=directive.subject if directive.kind == PERSON else request["role"],
        subject_origins=1 << request["origin"] & 0xFFFF,
        record=request["record"],
        purposes=1 << request["purpose"] & 0x07FF,
        start=request["minute"],
        until=request["minute"] + 1,
    )


# The endpoint


class Gateway:
    """Answers queries, by any number of threads at once."""

    def __init__(self, library, explainer, warn):
        self.library = library
        self.explainer = explainer
        self.warn = warn

    def answer(self, body):
        """The answer to the bytes of a query; raises BadRequest or Failure."""
        query = query_of(body)
        try:
            return self._answer(query)
        except newelsage.Error as error:
            raise Failure(f"the library fails: {error}") from error

    def _answer(self, query):
        ledger = Ledger(self.library)
        read = ledger.read(query.card)
        if not read.accepted:
            return {"card": self._refused_card(query.card, read)}
        records, directives = accepted(read, "a card", 2)
        card = {"status": 0, "edition": query.card[3], "records": records, "directives": directives}
        card["clock"] = ledger.counts().clock
        calls = [self._call(ledger, call, place) for place, call in enumerate(query.calls)]
        written = written_by(ledger)
        columns = [decisions_of(ledger, column, records, written.directives) for column in query.columns]
        return {
            "card": card,
            "calls": calls,
            "ledger": written.shown(tokens_of(ledger, records)),
            "written": written.card.hex(),
            "columns": [shown_column(decisions) for decisions in columns],
            "draft": None if query.draft is None else self._draft(ledger, written, query, columns),
            "alternatives": [ledger.copy().commit(draft).status for draft in query.alternatives],
            "briefs": [self._brief(written, states) for states in query.states],
        }

    @staticmethod
    def _call(ledger, call, place):
        minute = ledger.counts().clock
        try:
            answer = ledger.call(call.tag, call.value)
        except newelsage.Malformed as error:
            raise BadRequest(f"calls[{place}].value has not the length of its call") from error
        return {"status": answer.status, "values": list(answer.values), "minute": minute}

    def _brief(self, written, states):
        """What a token for these states would show."""
        ledger = Ledger(self.library)
        accepted(ledger.read(written.at_minute_0()), "a card", 2)
        accepted(ledger.issue(0, 0, states, 1), "an issue", 0)
        return {"states": states, **record_set(ledger.brief(0, 0), "a brief", len(written.records))}

    # a refused card

    def _refused_card(self, card, read):
        edition, patient = self._head(card)
        return {
            "status": read.status,
            "values": list(read.values),
            "length": len(card),
            "edition": edition,
            "patient": patient,
            "fault": None if read.status == Status.INCOMPLETE else self._fault(card, read),
        }

    def _head(self, card):
        """Edition and patient, where the card's head can be read."""
        ledger = Ledger(self.library)
        if len(card) < HEAD_LENGTH or not ledger.read(card[:HEAD_LENGTH] + SHORTEST_REST).accepted:
            return None, None
        return card[3], ledger.counts().patient

    def _fault(self, card, read):
        facts = self.explainer.card(card)
        field = facts.get("field")
        same = facts["refusal"] == read.status and (
            read.status != Status.CONFLICT or (facts["number"],) == read.values[:1]
        )
        if not same or field is None or not self._is_faulty(card, read.status, field):
            return self._not_shown(f"the place of a card's fault (question {read.status})")
        byte, words = field["byte"], field["words"]
        if byte is not None and not self._matters(card[: field["end"]], read.status, byte):
            byte = None
        if not PLAIN_WORDS.fullmatch(words):
            self.warn("the explaining program's words for a card's fault are not plain ones; they are not shown")
            words = None
        place = {name: field[name] for name in ("tag", "offset", "end")}
        return {"field": field["index"], **place, "byte": byte, "words": words}

    def _status(self, card):
        return Ledger(self.library).read(card).status

    def _is_faulty(self, card, status, field):
        """Whether this is one whole field of the card, the card is as it should be up to it, and is refused by the end of it."""
        index, offset, end, byte = (field[name] for name in ("index", "offset", "end", "byte"))
        if list(spans(card))[index : index + 1] != [(offset, end)] or field["tag"] != card[offset]:
            return False
        if byte is not None and not offset <= byte < end:
            return False
        return self._status(card[:offset]) in (Status.ACCEPTED, Status.INCOMPLETE) and self._status(card[:end]) == status

    def _matters(self, card, status, byte):
        """Whether a card is not refused in this way with some other value of the byte."""
        others = (card[:byte] + bytes([value]) + card[byte + 1 :] for value in range(256) if value != card[byte])
        return any(self._status(other) != status for other in others)

    # a draft

    def _draft(self, ledger, written, query, columns):
        after = ledger.copy()
        committed = after.commit(query.draft)
        if committed.accepted:
            return {"status": 0, "columns": self._previews(ledger, after, written, query, columns)}
        if any(ledger.preview(*column, query.draft) != committed for column in query.columns):
            raise Failure("the preview and the commit do not agree")
        return {"status": committed.status, **self._reason(written, query.draft, committed)}

    @staticmethod
    def _previews(ledger, after, written, query, columns):
        directives = [*written.directives, directive_of(query.draft)]
        return [
            preview_of(ledger, column, query.draft, before, decisions_of(after, column, len(written.records), directives))
            for column, before in zip(query.columns, columns)
        ]

    def _reason(self, written, draft, committed):
        """What stands against a draft, in the facts that the library bears out."""
        reasons = {
            Status.BREAKS_BASELINE: self._baseline,
            Status.CONFLICT: self._conflict,
            Status.REDUNDANT: self._redundant,
        }
        if committed.status not in reasons:
            return {}
        facts = self.explainer.draft(written.card, draft)
        line = " ".join(map(str, (committed.status, *committed.values)))
        if facts["tag"] != Tag.COMMIT or facts["line"] != line:
            facts = None
        trial = Trial(self.library, written)
        return reasons[committed.status](trial, directive_of(draft), committed, facts)

    def _baseline(self, trial, draft, _, facts):
        patient = draft.subject == trial.written.patient
        records = facts["records"] if facts and facts["patient"] == patient else []
        if not records or records != trial.protected_records(draft):
            records = self._not_shown("the records of question 12")
        return {"patient": patient, "records": records}

    def _conflict(self, trial, draft, committed, facts):
        active = [directive for directive in trial.written.directives if (directive.number,) == committed.values]
        if len(active) != 1:
            raise Failure("a conflict names a directive that is not active")
        named = active[0]
        request = facts["request"] if facts and facts["number"] == named.number else None
        if request is None or not trial.both_match(draft, named, request):
            request = self._not_shown("the request of question 13")
        return {"number": named.number, "request": request}

    def _redundant(self, trial, draft, _, facts):
        cover = facts["cover"] if facts else None
        if cover is None or not trial.covered(draft, cover):
            cover = self._not_shown("the cover of question 14")
        return {"cover": cover}

    def _not_shown(self, what):
        self.warn(f"the library does not bear out what the explaining program says of {what}; it is not shown")
        return None
