#!/usr/bin/env python3
"""Records what the Python package cryptography reads in the items of tests/data/published and tests/data/made.

  record.py           writes record.txt in each of the two folders
  record.py --check   writes nothing; exit status 1 where a record is not what the installed reader says now

Where the package is not installed, --check says so and ends with status 0.

A record has one line for each item, sorted by file, of fields `name=value` with a tab between them. A value is - where
the item has no such part and ? where the reader does not tell it. Octets are in hexadecimal, times YYYYMMDDHHMMSS.

  file            the path in the folder
  read            certificate, crl, or no where the reader refuses the item; then there are no more fields
  letters         the country of the issuer, as it is written; ? unless there is one
  issuer          the octets of the whole element

of a certificate further
  start, end      the times
  serial          the contents octets
  subject, key    the octets of the whole elements; the key is ? where the reader writes it in a form of its own
  subject_key, authority_key
                  the contents octets of the key identifiers

of a CRL further
  this_update, next_update
  entries         the number of entries
  serials         the contents octets of their serials, in order, with commas between them
"""
import pathlib
import sys
import warnings

from reader import needed

needed(sys.argv[1:])

from cryptography import x509
from cryptography.exceptions import UnsupportedAlgorithm
from cryptography.hazmat.primitives.serialization import Encoding, PublicFormat
from cryptography.x509.oid import NameOID

DATA = pathlib.Path(__file__).resolve().parents[1] / 'data'
FOLDERS = ('published', 'made')
ABSENT, NOT_TOLD = '-', '?'


def number(moment):
    return ABSENT if moment is None else moment.strftime('%Y%m%d%H%M%S')


def signed(integer):
    """The contents octets of an INTEGER."""
    size = (integer if integer >= 0 else -integer - 1).bit_length() // 8 + 1
    return integer.to_bytes(size, 'big', signed=True).hex()


def letters(name):
    found = name.get_attributes_for_oid(NameOID.COUNTRY_NAME)
    return found[0].value if len(found) == 1 else NOT_TOLD


def identifier(item, form, part):
    try:
        octets = getattr(item.extensions.get_extension_for_class(form).value, part)
    except x509.ExtensionNotFound:
        return ABSENT
    return ABSENT if octets is None else octets.hex()


def key(item, octets):
    found = item.public_key().public_bytes(Encoding.DER, PublicFormat.SubjectPublicKeyInfo)
    return found.hex() if found in octets else NOT_TOLD


def of_certificate(item, octets):
    return {
        'letters': lambda: letters(item.issuer),
        'issuer': lambda: item.issuer.public_bytes().hex(),
        'start': lambda: number(item.not_valid_before_utc),
        'end': lambda: number(item.not_valid_after_utc),
        'serial': lambda: signed(item.serial_number),
        'subject': lambda: item.subject.public_bytes().hex(),
        'key': lambda: key(item, octets),
        'subject_key': lambda: identifier(item, x509.SubjectKeyIdentifier, 'digest'),
        'authority_key': lambda: identifier(item, x509.AuthorityKeyIdentifier, 'key_identifier'),
    }


def of_crl(item):
    return {
        'letters': lambda: letters(item.issuer),
        'issuer': lambda: item.issuer.public_bytes().hex(),
        'this_update': lambda: number(item.last_update_utc),
        'next_update': lambda: number(item.next_update_utc),
        'entries': lambda: str(len(item)),
        'serials': lambda: ','.join(signed(entry.serial_number) for entry in item) or ABSENT,
    }


def told(ask):
    """One part, each asked for by itself: the reader may refuse one and tell the others."""
    try:
        return ask()
    except (ValueError, TypeError, UnsupportedAlgorithm, x509.DuplicateExtension):
        return NOT_TOLD


def read(octets):
    """What the item is and the questions for its parts."""
    try:
        return 'certificate', of_certificate(x509.load_der_x509_certificate(octets), octets)
    except (ValueError, x509.InvalidVersion):
        pass
    try:
        return 'crl', of_crl(x509.load_der_x509_crl(octets))
    except (ValueError, x509.InvalidVersion):
        return 'no', {}


def lines(folder):
    for path in sorted(folder.rglob('*')):
        if path.suffix in ('.der', '.crl'):
            what, parts = read(path.read_bytes())
            fields = dict(file=path.relative_to(folder).as_posix(), read=what)
            fields.update((name, told(ask)) for name, ask in parts.items())
            yield '\t'.join('%s=%s' % field for field in fields.items()) + '\n'


def main(words):
    if words not in ([], ['--check']):
        sys.exit(__doc__)
    # the reader warns of parts that the rules do not judge
    warnings.simplefilter('ignore')
    for folder in FOLDERS:
        path, text = DATA / folder / 'record.txt', ''.join(lines(DATA / folder))
        if not words:
            path.write_text(text)
        elif not path.exists() or path.read_text() != text:
            sys.exit('%s/record.txt is not what the reader says now' % folder)
        print('%s: %d items, record %s' % (folder, text.count('\n'), 'as told now' if words else 'written'))


if __name__ == '__main__':
    main(sys.argv[1:])
