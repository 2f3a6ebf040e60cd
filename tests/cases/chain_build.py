"""Items for chains that keep every rule in few octets, and tables of verdicts.

Where nothing else is said all have one name and one key, so that the verdicts alone decide which steps are good.
"""
import crl_build
from certificate_build import (ISSUER_NAMES, POINTS, PRIVATE_PERIOD, SUBJECT_NAMES, authority_key, certificate,
                               document_types, extensions, subject_key, type_list)
from der_build import common, country, extension, name, octet_string, printable, sequence, utc
from image_build import ANCHOR, CRL, LINK, SIGNER, Item
from octets import element, octets

EMPTY = octets('30 00')
NO_BITS = octets('03 01 00')
KEY = b'\1'


def named(text, letters='UT'):
    return name(country(letters), common(text))


NAME = named('A')


def authority(kind, flags, by, subject=NAME, own=KEY, issuer=NAME, serial=b'\1', **changed):
    members = small(kind, b'' if by is None else by_key(by), subject_key(octet_string(own)), b'')
    return Item(kind, flags, short(kind, issuer, subject, serial, members, changed))


def anchor(flags=1, by=None, **changed):
    """An anchor; it has an authority key identifier where one is given."""
    return authority(ANCHOR, flags, by, **changed)


def link(by=KEY, **changed):
    return authority(LINK, 0, by, **changed)


def signer(issuer=NAME, by=KEY, serial=b'\1', letters='UT', own=None, **changed):
    """A signer; it has a subject key identifier where one is given."""
    members = small(SIGNER, by_key(by), b'' if own is None else subject_key(octet_string(own)),
                    document_types(type_list(printable('P'))))
    return Item(SIGNER, 0, short(SIGNER, issuer, named('S', letters), serial, members, changed))


def by_key(octets_of_key):
    return authority_key(sequence(element(0x80, octets_of_key)))


def small(kind, issuer_key, own_key, types):
    return extensions(kind, authority_key=issuer_key, subject_key=own_key, document_types=types,
                      private_period=extension(PRIVATE_PERIOD, b''), subject_names=extension(SUBJECT_NAMES, b''),
                      issuer_names=extension(ISSUER_NAMES, b''), points=extension(POINTS, b''))


def short(kind, issuer, subject, serial, members, changed):
    parts = dict(issuer=issuer, subject=subject, serial=element(2, serial), algorithm=EMPTY, outer=EMPTY, key=EMPTY,
                 signature=NO_BITS, extensions=members)
    return certificate(kind, **{**parts, **changed})


def crl(*serials, **changed):
    """A CRL that lists those serials."""
    parts = dict(issuer=NAME, algorithm=EMPTY, outer=EMPTY, signature=NO_BITS, this=utc('240101000000Z'),
                 next=utc('341231235959Z'), extensions=[authority_key(b''), extension(crl_build.NUMBER, b'')],
                 entries=sequence(*map(crl_build.entry, serials)) if serials else b'')
    return Item(CRL, 0, crl_build.crl(**{**parts, **changed}))


def table(number, pairs):
    """The verdicts of that many places: 1 for each pair of signer and signed."""
    found = bytearray(number * number)
    for row, column in pairs:
        found[row * number + column] = 1
    return bytes(found)
