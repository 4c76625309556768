"""The words of a request, and the two ways in which one has no values."""

import re


class Refused(Exception):
    """A refusal by its number; in assembly the segment may follow."""


class NoRequest(Exception):
    """The line is no request."""


HEXADECIMAL = re.compile('(?:[0-9a-f]{2})+')
DECIMAL = re.compile('[0-9]+')


def byte_string(word):
    if word == '-':
        return b''
    if not HEXADECIMAL.fullmatch(word):
        raise NoRequest
    return bytes.fromhex(word)


def number(word, limit=2 ** 64 - 1):
    if not DECIMAL.fullmatch(word) or int(word) > limit:
        raise NoRequest
    return int(word)


def number32(word):
    return number(word, 2 ** 32 - 1)


def byte(word):
    return number(word, 255)


def optional_byte(word):
    return None if word == '-' else byte(word)


def hexadecimal(data):
    return bytes(data).hex() or '-'


def counted(texts):
    """A count and the texts, each after a space."""
    return ' '.join([str(len(texts)), *texts])
