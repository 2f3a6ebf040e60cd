#!/usr/bin/env python3
"""Compares the fields that the reader in tests/cases tells of each passing item with the records of record.py.

  agree.py    exit status 1 where a field is another one

It goes over tests/data/published, in the roles of answers.tsv, and tests/data/made, in the kinds of places.tsv. The
records are stored, so that no other reader is needed. A part told by offset and length must be those octets.
"""
import pathlib
import sys

sys.dont_write_bytecode = True
sys.path.append(str(pathlib.Path(__file__).resolve().parents[1] / 'cases'))

import oracle_certificate
import oracle_crl

DATA = pathlib.Path(__file__).resolve().parents[1] / 'data'
KINDS = {'anchor': 1, 'link': 2, 'signer': 3, 'crl': 4}
CRL = KINDS['crl']
NOT_TOLD = '?'


def table(path):
    heading, *lines = path.read_text().splitlines()
    return [dict(zip(heading.split('\t'), line.split('\t'))) for line in lines]


def record(folder):
    lines = (DATA / folder / 'record.txt').read_text().splitlines()
    fields = [dict(field.split('=', 1) for field in line.split('\t')) for line in lines]
    return {one['file']: one for one in fields}


def passing():
    """Folder, file and kind of each item that the rules pass."""
    for row in table(DATA / 'published' / 'answers.tsv'):
        if row['number'] == '0':
            yield 'published', row['file'], KINDS[row['role']]
    for file, kind in sorted({(row['file'], int(row['kind'])) for row in table(DATA / 'made' / 'places.tsv')}):
        yield 'made', file, kind


def told(octets, kind):
    """The fields by name, written as in a record."""
    def part(one):
        return octets[one.at:one.at + one.size].hex() if one != oracle_certificate.ABSENT else '-'

    if kind == CRL:
        fields = oracle_crl.judge(octets)
        serials = ','.join(entry.serial.contents().hex() for entry in oracle_crl.passing(octets).entries) or '-'
        found = dict(fields._asdict(), serials=serials)
    else:
        found = oracle_certificate.judge(octets, kind)._asdict()
    return {name: part(one) if isinstance(one, oracle_certificate.Part) else str(one) for name, one in found.items()}


def main(words):
    if words:
        sys.exit(__doc__)
    records = {folder: record(folder) for folder in ('published', 'made')}
    items, compared, skipped, faults = 0, 0, 0, []
    for folder, file, kind in passing():
        fields, wanted = told((DATA / folder / file).read_bytes(), kind), dict(records[folder][file])
        if fields.keys() != wanted.keys() - {'file', 'read'}:
            faults.append('%s: other fields' % file)
            continue
        items += 1
        for name, value in fields.items():
            if wanted[name] == NOT_TOLD:
                skipped += 1
            elif wanted[name] == value:
                compared += 1
            else:
                faults.append('%s: %s is %s, in the record %s' % (file, name, value, wanted[name]))
    print('%d passing items, %d fields equal, %d not told by the reader' % (items, compared, skipped))
    if faults:
        sys.exit('\n'.join(faults))


if __name__ == '__main__':
    main(sys.argv[1:])
