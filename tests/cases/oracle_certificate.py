"""A certificate by the rules paper: which rules it breaks, and its fields."""
import collections

from oracle_fields import (AUTHORITY_KEY, SEQUENCE, country, doubled, list_shape, moment, name_shape,
                           read_list, tbs_of)
from oracle_tree import tree
from refused import Refused

ANCHOR, LINK, SIGNER = 1, 2, 3
OCTET_STRING = 0x04

SUBJECT_KEY = bytes.fromhex('55 1D 0E')
KEY_USAGE = bytes.fromhex('55 1D 0F')
CONSTRAINTS = bytes.fromhex('55 1D 13')
PLAIN_FOUR = [bytes.fromhex('55 1D ' + last) for last in ('10', '11', '12', '1F')]
DOCUMENT_TYPES = bytes.fromhex('67 81 08 01 01 06 02')

USAGE_OF = {ANCHOR: bytes.fromhex('03 02 01 06'), LINK: bytes.fromhex('03 02 01 06'),
            SIGNER: bytes.fromhex('03 02 07 80')}
CONSTRAINTS_OF_AUTHORITY = bytes.fromhex('30 06 01 01 FF 02 01 00')

Part = collections.namedtuple('Part', 'at size')
Fields = collections.namedtuple('Fields', 'start end letters issuer subject key serial subject_key authority_key')
ABSENT = Part(0, 0)


class Certificate:
    """The parts of an item that has the shape of a certificate."""

    def __init__(self, outermost):
        tbs, self.outer, self.signature = outermost.members
        (version, self.serial, self.inner, self.issuer, validity, self.subject, self.key, *self.unique,
         block) = tbs.members
        self.version = version.members[0]
        self.start, self.end = validity.members
        self.extensions = read_list(block.members[0])

    def extension(self, name):
        return next((extension for extension in self.extensions if extension.name == name), None)


def has_shape(outermost):
    tbs = tbs_of(outermost, rb'\xa0\x02\x30\x30\x30\x30\x30\x81?\x82?\xa3')
    if tbs is None:
        return False
    version, block = tbs.members[0], tbs.members[-1]
    issuer, validity, subject = tbs.members[3:6]
    return (version.holds(rb'\x02') and block.holds(rb'\x30') and validity.holds(rb'[\x17\x18][\x17\x18]')
            and name_shape(issuer) and name_shape(subject) and list_shape(block.members[0]))


def inner_tree(extension):
    """The tree of an extension's contents, or None where these do not pass the walk."""
    try:
        return tree(extension.value.contents())
    except Refused:
        return None


def subject_key(extension):
    """The key identifier in a subjectKeyIdentifier, or None."""
    found = inner_tree(extension)
    if found is None or found.tag != OCTET_STRING:
        return None
    return Part(extension.value.start + found.start, found.end - found.start)


def authority_key(extension):
    """The key identifier in an authorityKeyIdentifier, or None."""
    found = inner_tree(extension)
    if found is None or found.tag != SEQUENCE or not found.holds(rb'\x80.*'):
        return None
    first = found.members[0]
    return Part(extension.value.start + first.start, first.end - first.start)


def times_hold(start, end):
    first, last = moment(start), moment(end)
    return first is not None and last is not None and first <= last


def countries_hold(issuer, subject):
    return country(issuer) is not None and country(issuer) == country(subject)


def usage_holds(usage, role):
    return usage is not None and usage.critical and usage.value.contents() == USAGE_OF[role]


def constraints_hold(constraints, role):
    if role == SIGNER:
        return constraints is None
    return (constraints is not None and constraints.critical
            and constraints.value.contents() == CONSTRAINTS_OF_AUTHORITY)


def key_holds(extension, required, form):
    if extension is None:
        return not required
    return not extension.critical and form(extension) is not None


def types_hold(extension):
    if extension is None or extension.critical:
        return False
    found = inner_tree(extension)
    if found is None or found.tag != SEQUENCE or not found.holds(rb'\x02\x31'):
        return False
    number, types = found.members
    return (number.contents() == b'\0' and types.holds(rb'\x13+')
            and all(1 <= len(one.contents()) <= 2 for one in types.members))


def broken_rules(item, role):
    """Every rule that is broken, the smallest first. What has not the shape of rule 1 has nothing more to judge."""
    outermost = tree(item)
    if not has_shape(outermost):
        return [1]
    one = Certificate(outermost)
    serial = one.serial.contents()
    own, authority = one.extension(SUBJECT_KEY), one.extension(AUTHORITY_KEY)
    four = [one.extension(name) for name in PLAIN_FOUR]
    keeps = {
        2: one.version.contents() == b'\2',
        3: int.from_bytes(serial, 'big', signed=True) > 0 and len(serial) <= 20,
        4: one.inner.whole() == one.outer.whole(),
        5: countries_hold(one.issuer, one.subject),
        6: one.unique == [],
        7: times_hold(one.start, one.end),
        8: one.extensions != [] and not doubled(one.extensions),
        9: usage_holds(one.extension(KEY_USAGE), role),
        10: constraints_hold(one.extension(CONSTRAINTS), role),
        11: (key_holds(own, role in (ANCHOR, LINK), subject_key)
             and key_holds(authority, role in (LINK, SIGNER), authority_key)),
        12: all(extension is not None and not extension.critical for extension in four),
        13: role != SIGNER or types_hold(one.extension(DOCUMENT_TYPES)),
        14: all(extension.name in (KEY_USAGE, CONSTRAINTS) for extension in one.extensions if extension.critical),
    }
    return [rule for rule in sorted(keeps) if not keeps[rule]]


def whole(element):
    return Part(element.at, element.end - element.at)


def judge(item, role):
    """The fields of a certificate that keeps every rule of a role."""
    if role not in (ANCHOR, LINK, SIGNER):
        raise Refused(1)
    broken = broken_rules(item, role)
    if broken:
        raise Refused(4, broken[0])
    one = Certificate(tree(item))
    own, authority = one.extension(SUBJECT_KEY), one.extension(AUTHORITY_KEY)
    return Fields(
        moment(one.start), moment(one.end), country(one.issuer), whole(one.issuer), whole(one.subject), whole(one.key),
        Part(one.serial.start, one.serial.end - one.serial.start),
        subject_key(own) if own else ABSENT, authority_key(authority) if authority else ABSENT)
