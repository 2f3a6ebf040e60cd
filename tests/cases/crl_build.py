"""CRLs that keep every rule, with any part replaceable."""
from certificate_build import algorithm, authority_key, issuer_name, signature
from der_build import context, extension, integer, sequence, utc
from octets import element, octets

NUMBER, REASON, INVALIDITY, CERTIFICATE_ISSUER = '2.5.29.20', '2.5.29.21', '2.5.29.24', '2.5.29.29'
FIRST, SECOND, THIRD = octets('11 22 33 44'), octets('55 66 77 88 99'), octets('00 80')


def entry(serial, time=utc('240215120000Z'), extensions=None):
    """An entry for a serial with those contents octets. No list of extensions is another thing than an empty one."""
    return sequence(element(2, serial), time, b'' if extensions is None else sequence(*extensions))


def reason(critical=False):
    return extension(REASON, element(0x0a, b'\1'), critical)


def number(critical=False):
    return extension(NUMBER, integer(41), critical)


def extensions():
    return [authority_key(), number()]


def entries():
    return sequence(entry(FIRST), entry(SECOND, extensions=[reason()]), entry(THIRD))


def crl(**changed):
    """A CRL with three entries. A part given as nothing is left out; `block` stands around the list of extensions."""
    lists = changed.pop('extensions', None)
    parts = {
        'version': integer(1),
        'algorithm': algorithm(),
        'issuer': issuer_name(),
        'this': utc('240301000000Z'),
        'next': utc('240530235959Z'),
        'entries': entries(),
        'block': context(0, sequence(*(extensions() if lists is None else lists))),
        'outer': algorithm(),
        'signature': signature(),
        'after': b'',
    }
    assert set(changed) <= set(parts), changed
    parts.update(changed)
    inner = [parts[part] for part in ('version', 'algorithm', 'issuer', 'this', 'next', 'entries', 'block')]
    return sequence(sequence(*inner), parts['outer'], parts['signature'], parts['after'])
