#!/usr/bin/env python3
"""Gives the answer of the rules for each item of tests/data/published, and explains each refusal by other readers.

  explain.py           writes answers.tsv
  explain.py --check   writes nothing; exit status 1 where answers.tsv is not what is found now

The answer is that of the reader in tests/cases. The explanation is what the package cryptography and openssl show
(evidence.py), without that reader; exit status 1 also where the two do not find the same rules broken. Where these
readers are not installed, --check says that nothing was compared and ends with status 0.

answers.tsv has the columns file, role (anchor, link, signer or crl), number (0 for a pass), detail, broken (every rule
that is broken by the evidence, with commas between them) and why (the rule of the detail and the evidence for it).
- stands for none.
"""
import pathlib
import sys
import warnings

sys.dont_write_bytecode = True
sys.path.append(str(pathlib.Path(__file__).resolve().parents[1] / 'cases'))

import oracle_certificate
import oracle_crl
from reader import needed
from refused import Refused

needed(sys.argv[1:], command=True)

from cryptography import x509
from cryptography.exceptions import InvalidSignature

import evidence

FOLDER = pathlib.Path(__file__).resolve().parents[1] / 'data' / 'published'
ROLES = {evidence.ANCHOR: oracle_certificate.ANCHOR, evidence.LINK: oracle_certificate.LINK,
         evidence.SIGNER: oracle_certificate.SIGNER}
UNEXPLAINED = 'no evidence'

RULES = {
    1: 'shape', 2: 'version 3', 3: 'serial', 4: 'equal algorithms', 5: 'country', 6: 'no unique identifiers',
    7: 'times', 8: 'extensions, none twice', 9: 'key usage', 10: 'basic constraints', 11: 'key identifiers',
    12: 'four extensions, not critical', 13: 'document type list', 14: 'nothing else critical',
}
CRL_RULES = {1: 'shape', 2: 'version 2', 3: 'equal algorithms', 4: 'country', 5: 'times', 6: 'entry list not empty',
             7: 'key identifier and number, none twice', 8: 'nothing critical'}


def role_of(path, octets):
    """By the folder and the name; a country signing certificate that its own key did not sign is a link."""
    if path.suffix == '.crl':
        return evidence.CRL
    if path.name.startswith('ds-'):
        return evidence.SIGNER
    item = x509.load_der_x509_certificate(octets)
    try:
        item.verify_directly_issued_by(item)
    except (ValueError, TypeError, InvalidSignature):
        return evidence.LINK
    return evidence.ANCHOR


def answer(octets, role):
    """Number, detail and every broken rule, by the reader in tests/cases."""
    try:
        if role == evidence.CRL:
            broken = oracle_crl.broken_rules(octets)
        else:
            broken = oracle_certificate.broken_rules(octets, ROLES[role])
    except Refused as refusal:
        return refusal.number, refusal.detail, []
    return (4, broken[0], broken) if broken else (0, 0, [])


def explained(path):
    """The row of an item, and whether the evidence bears it out."""
    octets = path.read_bytes()
    role = role_of(path, octets)
    number, detail, broken = answer(octets, role)
    seen = evidence.of_crl(octets) if role == evidence.CRL else evidence.of_certificate(octets, role)
    why = '-'
    if number == 4:
        names = CRL_RULES if role == evidence.CRL else RULES
        why = 'rule %d (%s): %s' % (detail, names[detail], seen.get(detail, UNEXPLAINED))
    elif number:
        why = UNEXPLAINED
    row = (path.relative_to(FOLDER).as_posix(), role, number, detail, ','.join(map(str, seen)) or '-', why)
    return row, list(seen) == broken and UNEXPLAINED not in why


def main(words):
    if words not in ([], ['--check']):
        sys.exit(__doc__)
    # the reader warns of parts that the rules do not judge
    warnings.simplefilter('ignore')
    paths = sorted(path for path in FOLDER.rglob('*') if path.suffix in ('.der', '.crl'))
    found = [explained(path) for path in paths]
    text = 'file\trole\tnumber\tdetail\tbroken\twhy\n' + ''.join('\t'.join(map(str, row)) + '\n' for row, _ in found)
    path = FOLDER / 'answers.tsv'
    if not words:
        path.write_text(text)
    elif not path.exists() or path.read_text() != text:
        sys.exit('answers.tsv is not what is found now')
    open_points = [row[0] for row, clear in found if not clear]
    print('%d items, %d refused, %d without an explanation' % (
        len(found), sum(row[2] != 0 for row, _ in found), len(open_points)))
    if open_points:
        sys.exit('not explained: ' + ', '.join(open_points))


if __name__ == '__main__':
    main(sys.argv[1:])
