"""Certificates that keep every rule of their role, with any part replaceable.

A case is a good certificate with one thing changed. Keys, signatures and key identifiers are octets of the right form
and no more: nothing here is signed.
"""
import hashlib

from der_build import (ORGANIZATION, attribute, bit_string, common, context, country, extension, integer, name,
                       octet_string, oid, printable, sequence, set_of, utc, utf8)
from octets import element, octets

ANCHOR, LINK, SIGNER = 1, 2, 3
ROLES = {ANCHOR: 'anchor', LINK: 'link', SIGNER: 'signer'}

SUBJECT_KEY, KEY_USAGE, PRIVATE_PERIOD, SUBJECT_NAMES, ISSUER_NAMES, CONSTRAINTS, POINTS, AUTHORITY_KEY = (
    '2.5.29.%d' % number for number in (14, 15, 16, 17, 18, 19, 31, 35))
DOCUMENT_TYPES = '2.23.136.1.1.6.2'
POLICIES = '2.5.29.32'
NO_MEANING = '1.3.6.1.4.1.99999.1'

SIGNS_CERTIFICATES = octets('03 02 01 06')
SIGNS_DOCUMENTS = octets('03 02 07 80')
LAST_AUTHORITY = octets('30 06 01 01 FF 02 01 00')


def made_up(word, size):
    """Octets that look like those of a key or a signature; the first of them is below 80."""
    found = b''
    while len(found) < size:
        found += hashlib.sha256(('%s %d' % (word, len(found))).encode('ascii')).digest()
    return bytes([found[0] & 0x7f | 1]) + found[1:size]


def issuer_name(letters='UT'):
    return name(country(letters), attribute(ORGANIZATION, utf8('Utopia')), common('CSCA'))


def subject_name(role, letters='UT'):
    if role == ANCHOR:
        return issuer_name(letters)
    return name(country(letters), attribute(ORGANIZATION, utf8('Utopia')),
                common('CSCA 2' if role == LINK else 'Document Signer 7'))


def algorithm():
    return sequence(oid('1.2.840.10045.4.3.2'))


def public_key(word='key'):
    return sequence(sequence(oid('1.2.840.10045.2.1'), oid('1.2.840.10045.3.1.7')),
                    bit_string(b'\4' + made_up(word, 64)))


def signature():
    return bit_string(sequence(element(2, made_up('r', 32)), element(2, made_up('s', 32))))


def times(start, end):
    return sequence(start, end)


def subject_key(contents=None, critical=False):
    if contents is None:
        contents = octet_string(made_up('subject key', 20))
    return extension(SUBJECT_KEY, contents, critical)


def authority_key(contents=None, critical=False):
    if contents is None:
        contents = sequence(element(0x80, made_up('authority key', 20)))
    return extension(AUTHORITY_KEY, contents, critical)


def document_types(contents=None, critical=False):
    if contents is None:
        contents = type_list(printable('P'), printable('ID'))
    return extension(DOCUMENT_TYPES, contents, critical)


def type_list(*types):
    return sequence(integer(0), set_of(*types))


def extensions(role, *more, **changed):
    """The list of extensions of a role. One is replaced by its name, and left out where it is given as nothing; others
    are added at the end."""
    parts = {
        'authority_key': b'' if role == ANCHOR else authority_key(),
        'subject_key': b'' if role == SIGNER else subject_key(),
        'key_usage': extension(KEY_USAGE, SIGNS_DOCUMENTS if role == SIGNER else SIGNS_CERTIFICATES, critical=True),
        'private_period': extension(PRIVATE_PERIOD, sequence(element(0x80, b'20240101000000Z'),
                                                             element(0x81, b'20270101000000Z'))),
        'subject_names': extension(SUBJECT_NAMES, sequence(element(0x81, b'csca@utopia.example'))),
        'issuer_names': extension(ISSUER_NAMES, sequence(element(0x81, b'csca@utopia.example'))),
        'document_types': document_types() if role == SIGNER else b'',
        'constraints': b'' if role == SIGNER else extension(CONSTRAINTS, LAST_AUTHORITY, critical=True),
        'points': extension(POINTS, sequence(sequence(context(0, context(0, element(
            0x86, b'http://utopia.example/csca.crl')))))),
    }
    assert set(changed) <= set(parts), changed
    parts.update(changed)
    return [part for part in parts.values() if part] + list(more)


def parts_of(role, **changed):
    """The parts of a certificate by name, those of the tbs first. A part given as nothing is left out."""
    lists = changed.pop('extensions', None)
    first, second = changed.pop('start', utc('240101000000Z')), changed.pop('end', utc('341231235959Z'))
    parts = {
        'version': context(0, integer(2)),
        'serial': integer(0x1122334455667788),
        'algorithm': algorithm(),
        'issuer': issuer_name(),
        'times': times(first, second),
        'subject': subject_name(role),
        'key': public_key(),
        'unique': b'',
        'block': context(3, sequence(*(extensions(role) if lists is None else lists))),
        'outer': algorithm(),
        'signature': signature(),
        'after': b'',
    }
    assert set(changed) <= set(parts), changed
    parts.update(changed)
    return parts


def certificate(role, **changed):
    """A certificate of a role. Of its times `start` and `end` are given by themselves, of its block of extensions the
    list in it; `unique` stands before the block and `after` behind the signature."""
    return put_together(parts_of(role, **changed))


def put_together(parts):
    inner = [parts[part] for part in ('version', 'serial', 'algorithm', 'issuer', 'times', 'subject', 'key', 'unique',
                                      'block')]
    return sequence(sequence(*inner), parts['outer'], parts['signature'], parts['after'])
