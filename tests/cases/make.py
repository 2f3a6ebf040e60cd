#!/usr/bin/env python3
"""Writes the questions that the program `cases` is run on, and the lines that it must answer.

  make.py           writes crates/cases/stdin and crates/cases/stdout
  make.py --check   writes nothing; exit status 1 where a file is not what would be written
"""
import pathlib
import sys

sys.dont_write_bytecode = True

import cases_anchors
import cases_certificate
import cases_certificate_extensions
import cases_certificate_parts
import cases_certificate_shape
import cases_chain
import cases_contents
import cases_crl
import cases_days
import cases_der
import cases_image
import cases_integer
import cases_letters
import cases_limits
import cases_listed
import cases_member
import cases_order
import cases_proposal
import cases_room
import cases_signers
import cases_tray
import cases_write
import mended
from record import CERTIFICATE, CRL, IMAGE, NO_KIND, ROOM, WALK, Case, head

PARTS = (cases_der, cases_contents, cases_limits, cases_order, cases_integer, cases_member, cases_days, cases_certificate,
         cases_certificate_shape, cases_certificate_parts, cases_certificate_extensions, cases_crl, cases_listed,
         cases_image, cases_write, cases_letters, cases_anchors, cases_room, cases_chain, cases_tray, cases_proposal,
         cases_signers)
FOLDER = pathlib.Path(__file__).resolve().parents[2] / 'crates' / 'cases'


def cases():
    found = [case for part in PARTS for case in part.cases()]
    found.append(Case('a kind that is none', NO_KIND, 'no such question'))
    labels = [case.label for case in found]
    double = sorted({label for label in labels if labels.count(label) > 1})
    if double:
        sys.exit('two cases have the label: ' + ', '.join(double))
    for kind, rules, form in ((CERTIFICATE, 14, None), (CRL, 8, None), (IMAGE, 7, 1), (IMAGE, 7, 2)):
        for rule in range(1, rules + 1):
            if sum(case.kind == kind and case.form == form and case.broken == (rule,) for case in found) < 2:
                sys.exit('kind %d: fewer than two cases break rule %d alone' % (kind, rule))
    for kind, rules in ((CERTIFICATE, 14), (CRL, 8)):
        for fault in mended.faults(found, kind, rules):
            sys.exit(fault)
    return found


def files():
    """The two files. The last record is one that there is no room for, which ends the run."""
    found = cases()
    asked = b''.join(case.record() for case in found) + head(WALK, 0, ROOM + 1)
    told = ''.join(case.line() for case in found) + 'a record is too long\n'
    return {'stdin': asked, 'stdout': told.encode('ascii')}, len(found)


def stale(name, wanted):
    path = FOLDER / name
    if not path.exists():
        return '%s: the file is missing' % path.name
    have = path.read_bytes()
    if have == wanted:
        return None
    at = next((i for i, (a, b) in enumerate(zip(have, wanted)) if a != b), min(len(have), len(wanted)))
    return '%s: differs from octet %d on' % (path.name, at)


def main(words):
    made, number = files()
    if words == ['--check']:
        faults = [fault for fault in (stale(name, made[name]) for name in made) if fault]
        if faults:
            sys.exit('crates/cases is not what tests/cases/make.py writes:\n' + '\n'.join(faults))
        print('%d cases, both files as made' % number)
    elif not words:
        for name in made:
            (FOLDER / name).write_bytes(made[name])
        print('%d cases written' % number)
    else:
        sys.exit(__doc__)


if __name__ == '__main__':
    main(sys.argv[1:])
