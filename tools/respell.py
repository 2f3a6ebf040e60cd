#!/usr/bin/env python3
"""Brings the definitions and lemmas of this repository to the spelling of today's Rattle: snake case for words, camel case for types.

  tools/respell.py        at the top of a checkout in which port.py of the kit ran; a second run changes nothing

Definitions, fields of records and variables such as `realDay` become `real_day`, in specs/, proofs/ and the clauses of src/, in
the edits of must-fail/ and between backquotes of comments and documents. Names of functions of src/, strings, inputs and outputs
stay. Where a new name would fall together with another one of its scope, the table APART says what stands for either.
The edits also get today's form of clauses and of paths, as port.py writes them.
"""
import pathlib
import re

ROOT = pathlib.Path(__file__).resolve().parent.parent
CRATES = ROOT / 'crates'

CAMEL = re.compile(r"(?<![A-Za-z0-9_'-])[a-z][a-z0-9]*(?:[A-Z][a-z0-9]*)+(?![A-Za-z0-9_'-])")
# words that do not follow the rule
OWN = {'cRLNumber': 'crl_number', 'keyAt': 'key_start'}
# lemmas that would have the name of a definition: crate, file, the name in it, its new name
APART = [
    ('certificate', 'key_in', 'key-in'),
    ('usable', 'on_list', 'on-list'),
    ('roundtrip', 'letter_at', 'letter-at'),
    ('roundtrip', 'sized_of', 'sized-of'),
    ('tree', 'sized_of', 'sized-of'),
    ('graph', 'one_more', 'one-more'),
    ('chain', 'one_set', 'one-set'),
    ('parts', 'first_member', 'first-member'),
    ('renumbered', 'at_first', 'at-first'),
]
# names of the standard that the documents speak of beside the definitions
STANDARD = {'countryName', 'keyUsage', 'basicConstraints', 'cRLNumber', 'subjectKeyIdentifier', 'authorityKeyIdentifier',
            'keyCertSign', 'cRLSign', 'digitalSignature', 'extKeyUsage', 'nameChange', 'documentTypeList', 'keyIdentifier',
            'authorityCertIssuer', 'authorityCertSerialNumber', 'pathLenConstraint', 'printableString', 'utf8String',
            'crlEntryExtensions', 'revokedCertificates', 'thisUpdate', 'nextUpdate', 'tbsCertList', 'tbsCertificate',
            'signatureAlgorithm', 'signatureValue', 'serialNumber', 'extnID', 'extnValue', 'notBefore', 'notAfter',
            'generalTime', 'utcTime', 'issuerUniqueID', 'subjectUniqueID', 'rustc', 'authorityCert'}
LIBRARY = {'getD': 'get_or'}


def snake(name):
    return OWN.get(name) or re.sub('[A-Z]', lambda m: '_' + m.group(0).lower(), name)


def respelled(text, keep=()):
    return CAMEL.sub(lambda m: m.group(0) if m.group(0) in keep else snake(m.group(0)), text)


def quoted(text, known, keep):
    """The same between backquotes alone, for names that are known."""
    def inner(m):
        return CAMEL.sub(lambda w: snake(w.group(0)) if w.group(0) in known and w.group(0) not in keep else w.group(0), m.group(0))
    return re.sub(r'`[^`\n]+`', inner, text)


def lines_of(path, comment):
    """The lines of a file, each cut where its comment begins; a comment sign within a string is none."""
    for line in path.read_text(encoding='utf-8').split('\n'):
        at = -1
        for m in re.finditer(re.escape(comment), line):
            if line.count('"', 0, m.start()) % 2 == 0:
                at = m.start()
                break
        yield (line, '') if at < 0 else (line[:at], line[at:])


def source(path, comment, known):
    out = []
    for code, said in lines_of(path, comment):
        parts = re.split(r'("(?:[^"\\]|\\.)*")', code)
        code = ''.join(p if i % 2 else respelled(p) for i, p in enumerate(parts))
        out.append(code + quoted(said, known, ()))
    return '\n'.join(out)


def write(path, text):
    if text != path.read_text(encoding='utf-8'):
        path.write_text(text, encoding='utf-8')


def turned_edit(text, known):
    """An edit's texts in today's form."""
    out = []
    for line in text.split('\n'):
        head, sign, rest = line.partition(': ')
        if sign and head in ('old', 'new'):
            rest = clause(rest)
            for old, new in LIBRARY.items():
                rest = re.sub(r'(?<![\w-])%s(?![\w-])' % old, new, rest)
            line = head + sign + respelled(rest)
        out.append(line)
    return '\n'.join(out)


def clause(text):
    text = re.sub(r'\{ λ r\. ⌜ (.*?) ⌝ \}', lambda m: '{ ' + re.sub(r'(?<![\w.-])r(?![\w-])', 'result', m.group(1)) + ' }', text)
    text = re.sub(r'\{ ⌜ (.*?) ⌝ \}', r'{ \1 }', text)
    text = re.sub(r'\(now \((\w+) \.entry\)\)', r'\1.now', text)
    text = re.sub(r'now \((\w+) \.entry\)', r'\1.now', text)
    text = re.sub(r'\((\w+) (\.\w+)\)', r'\1\2', text)
    text = re.sub(r'(?<=[\w)»]) (\.«?[a-z_0-9]+»?)', lambda m: m.group(1).replace('«', '').replace('»', ''), text)
    return re.sub(r'(?<=\w)·specs\.specs\.|·(?=\w)', lambda m: '.specs.' if 'specs' in m.group(0) else '.', text)


def main():
    antt = [p for part in ('specs', 'proofs') for p in sorted(CRATES.glob('*/%s/**/*.antt' % part))]
    known = set()
    for path in antt:
        for code, _ in lines_of(path, '--'):
            known.update(CAMEL.findall(code))
    for crate, old, new in APART:
        for path in sorted((CRATES / crate / 'proofs').rglob('*.antt')):
            text = path.read_text(encoding='utf-8')
            if not re.search(r'(?m)^ *(?:pub )?%s :' % old, text) and not re.search(r'^use .*[{ ,]%s[,}]' % old, text, re.M):
                continue
            write(path, re.sub(r"(?<![\w.'-])%s(?![\w'-])" % old, new, text))
    for path in antt:
        write(path, source(path, '--', known))
    for path in sorted(CRATES.glob('*/src/**/*.rt')):
        write(path, source(path, '//', known))
    for path in sorted(CRATES.glob('*/must-fail/**/*.edit')):
        write(path, turned_edit(path.read_text(encoding='utf-8'), known))
    for path in [ROOT / 'README.md', *sorted((ROOT / 'docs').glob('**/*.md'))]:
        write(path, quoted(path.read_text(encoding='utf-8'), known, STANDARD))


if __name__ == '__main__':
    main()
