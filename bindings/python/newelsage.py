"""The consent gateway's library for Python, by ctypes and the standard library alone.

    library = newelsage.Library("target/library/libnewelsage.so")
    ledger = newelsage.Ledger(library)
    if ledger.read(card).accepted:
        decision = ledger.decide(person=600, role=1, origin=1, record=1, purpose=0)

Every call gives an Answer: the status, 0 where the call was accepted, and its values. A refusal is an answer; a call that was not
made is an exception. include/newelsage.h describes the calls, docs/FORMATS.md the bytes of a card and of a draft.

Threads: any number of ledgers may be used at once, each by one thread at a time; several may ask the same ledger at once. The
interpreter's lock is released while the library works.
"""

import ctypes
import enum
import os
from typing import NamedTuple

# What this module was written for, as in include/newelsage.h.
VERSION = 1
SIZE = 2928


class Status(enum.IntEnum):
    """What a call is answered: accepted, or the number of the question that it misses."""

    ACCEPTED = 0
    FIELD_NOT_WHOLE = 1
    FIELD_MISPLACED = 2
    TOO_MANY_RECORDS = 3
    OUT_OF_RANGE = 4
    INCOMPLETE = 5
    DRAFT_LENGTH = 6
    DRAFT_OUT_OF_RANGE = 7
    NOT_IN_REGISTER = 8
    NO_MINUTES = 9
    NUMBER_TAKEN = 10
    LIST_FULL = 11
    BREAKS_BASELINE = 12
    CONFLICT = 13
    REDUNDANT = 14
    NOT_ACTIVE = 15
    BEFORE_CLOCK = 16
    REQUEST_OUT_OF_RANGE = 17
    NO_STATE = 18
    WRONG_MINUTES = 19
    TOKEN_TAKEN = 20
    TOKENS_FULL = 21
    NO_TOKEN = 22
    NO_RECORD = 23
    BUFFER_TOO_SHORT = 24


class Tag(enum.IntEnum):
    """The calls."""

    COUNTS = 0x00
    TOKEN = 0x01
    COMMIT = 0x10
    REVOKE = 0x11
    ADVANCE = 0x12
    ISSUE = 0x13
    DECIDE = 0x14
    BRIEF = 0x15
    WRITE = 0x16
    PREVIEW = 0x17


# A buffer of this length is enough for every card that is written.
LONGEST_CARD = 2589

_VALUES = 6
_UNANSWERED = 2**64 - 1


class Error(Exception):
    """There is no answer."""


class Unusable(Error):
    """The library cannot be loaded, or is not the one that this module was written for."""


class Malformed(Error):
    """The function has no such tag, or the value has not the tag's length."""


class MemoryTooShort(Error):
    """The memory is shorter than a ledger."""


class NotALedger(Error):
    """The memory does not begin as a ledger of this version does."""


_NOT_MADE = {101: Malformed, 102: MemoryTooShort, 103: NotALedger}


class Answer(NamedTuple):
    """The status of a call, its values, and for a write the bytes of the card."""

    status: int
    values: tuple = ()
    data: bytes = b""

    @property
    def accepted(self):
        return self.status == Status.ACCEPTED


class Counts(NamedTuple):
    patient: int
    clock: int
    records: int
    directives: int
    tokens: int


class Token(NamedTuple):
    number: int
    person: int
    states: int
    until: int


class _Answer(ctypes.Structure):
    _fields_ = [("status", ctypes.c_uint64), ("count", ctypes.c_uint64), ("values", ctypes.c_uint64 * _VALUES)]


class Library:
    """The shared library. It may be used by any number of threads."""

    def __init__(self, path):
        self.path = os.path.abspath(os.fspath(path))
        try:
            self._load(ctypes.CDLL(self.path))
        except (OSError, AttributeError) as error:
            raise Unusable(f"the library cannot be loaded: {error}") from error
        if self.version != VERSION:
            raise Unusable(f"{self.path} has version {self.version}; this module is for version {VERSION}")
        if self.size != SIZE:
            raise Unusable(f"{self.path} has ledgers of {self.size} bytes; this module is for {SIZE}")

    def _load(self, library):
        ledger, data, length = ctypes.c_void_p, ctypes.c_char_p, ctypes.c_size_t
        answer = ctypes.POINTER(_Answer)

        def function(name, result, *arguments):
            found = getattr(library, name)
            found.restype, found.argtypes = result, arguments
            return found

        status = ctypes.c_uint64
        self.size = function("newelsage_size", length)()
        self.version = function("newelsage_version", ctypes.c_uint64)()
        self.empty = function("newelsage_empty", status, ledger, length)
        self.read = function("newelsage_read", status, ledger, length, data, length, answer)
        self.call = function("newelsage_call", status, ledger, length, ctypes.c_uint8, data, length, answer)
        self.ask = function(
            "newelsage_ask", status, ledger, length, ctypes.c_uint8, data, length, ctypes.c_void_p, length, answer
        )


class Ledger:
    """A ledger of one patient, at first the empty one."""

    def __init__(self, library):
        self._library = library
        self._memory = _memory(library.size)
        if _made(library.empty(self._memory, library.size)) != Status.ACCEPTED:
            raise Error("the library's answer cannot be used")

    def read(self, card):
        """Reads a card, whatever stood here. values: records, active directives. A refused card gives the empty ledger."""
        card = _bytes(card)
        return self._answered(self._library.read, card, len(card))

    def call(self, tag, value=b""):
        """A call that can change the ledger: COMMIT, REVOKE, ADVANCE or ISSUE."""
        value = _bytes(value)
        return self._answered(self._library.call, _tag(tag), value, len(value))

    def ask(self, tag, value=b"", lent=0):
        """A call that changes nothing. `lent` is the length of the buffer that a WRITE gets."""
        value = _bytes(value)
        if lent < 0:
            raise ValueError("a length is not below 0")
        buffer = ctypes.create_string_buffer(max(lent, 1))
        answer = self._answered(self._library.ask, _tag(tag), value, len(value), buffer, lent)
        if tag != Tag.WRITE or not answer.accepted:
            return answer
        if len(answer.values) != 1 or answer.values[0] > lent:
            raise Error("the library's answer cannot be used")
        return answer._replace(data=buffer.raw[: answer.values[0]])

    def commit(self, draft):
        return self.call(Tag.COMMIT, draft)

    def revoke(self, number):
        return self.call(Tag.REVOKE, _joined((number, 2)))

    def advance(self, minute):
        """values: directives dropped, tokens dropped."""
        return self.call(Tag.ADVANCE, _joined((minute, 4)))

    def issue(self, number, person, states, length):
        return self.call(Tag.ISSUE, _joined((number, 2), (person, 2), (states, 1), (length, 4)))

    def decide(self, person, role, origin, record, purpose):
        """values: effect (1 permit, 0 deny), basis, and for basis 3 the directive's number."""
        return self.ask(Tag.DECIDE, _joined((person, 2), (role, 2), (origin, 1), (record, 1), (purpose, 1)))

    def brief(self, number, person):
        """values: the two words, the count."""
        return self.ask(Tag.BRIEF, _joined((number, 2), (person, 2)))

    def write(self, lent=LONGEST_CARD):
        """data: the card. values: its length."""
        return self.ask(Tag.WRITE, _joined((lent, 2)), lent)

    def preview(self, person, role, origin, purpose, draft):
        """values: the two words, the count."""
        return self.ask(Tag.PREVIEW, _joined((person, 2), (role, 2), (origin, 1), (purpose, 1)) + _bytes(draft))

    def counts(self):
        return _typed(Counts, self.ask(Tag.COUNTS))

    def tokens(self):
        """The live tokens in order of issue."""
        return [_typed(Token, self.ask(Tag.TOKEN, _joined((place, 1)))) for place in range(self.counts().tokens)]

    def save(self):
        """All of the ledger as bytes, the tokens too, which a card does not have."""
        return bytes(self._memory)

    def restore(self, saved):
        """Makes this the ledger that was saved. Bytes that are none are refused, and the ledger stays as it was."""
        saved = _bytes(saved)
        if len(saved) > self._library.size:
            raise NotALedger(f"a ledger has {self._library.size} bytes, these are {len(saved)}")
        other = Ledger(self._library)
        ctypes.memmove(other._memory, saved, len(saved))
        other._answered(self._library.ask, Tag.COUNTS, b"", 0, ctypes.create_string_buffer(1), 0, size=len(saved))
        self._memory = other._memory

    def copy(self):
        other = Ledger(self._library)
        ctypes.memmove(other._memory, self._memory, self._library.size)
        return other

    def _answered(self, function, *arguments, size=None):
        answer = _Answer(status=_UNANSWERED)
        size = self._library.size if size is None else size
        returned = _made(function(self._memory, size, *arguments, ctypes.byref(answer)))
        if answer.status != returned or answer.count > _VALUES:
            raise Error("the library's answer cannot be used")
        return Answer(answer.status, tuple(answer.values[: answer.count]))


def _memory(size):
    """Memory of this length, aligned as a uint64_t."""
    return (ctypes.c_uint64 * (size // 8))()


def _made(status):
    """The status of a call that was made."""
    if status in _NOT_MADE:
        raise _NOT_MADE[status](_NOT_MADE[status].__doc__)
    return status


def _bytes(value):
    """The bytes, whose address is never NULL. A number is refused, as bytes(5) would be five zeros."""
    if not isinstance(value, (bytes, bytearray, memoryview)):
        raise TypeError(f"bytes are wanted, not {type(value).__name__}")
    return bytes(value)


def _tag(tag):
    """The tag, which ctypes would cut to one byte."""
    if not 0 <= tag <= 255:
        raise ValueError("a tag is one byte")
    return tag


def _joined(*parts):
    """Numbers of stated lengths, high byte first; one that does not fit raises OverflowError."""
    return b"".join(number.to_bytes(length, "big") for number, length in parts)


def _typed(kind, answer):
    if not answer.accepted or len(answer.values) != len(kind._fields):
        raise Error("the library's answer cannot be used")
    return kind(*answer.values)
