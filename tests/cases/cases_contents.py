"""Cases of the walk: contents of the types that are judged, from both sides, and of some that are not."""
from cases_der import AT, BAD, NULL, PASSED, walk
from octets import element, octets


def judged_contents():
    judged = (
        ('BOOLEAN', 1, '00/FF', '/01/05/7F/80/FE/00 00/FF FF/FF 00'),
        ('INTEGER', 2,
         '00/01/7F/80/FF/00 80/00 FF/01 00/7F FF/80 00/FF 00/FF 7F/00 80 00/FF 7F FF/00 FF FF FF FF FF FF FF FF',
         '/00 00/00 01/FF 80/FF FF/00 00 80/FF FF 7F/00 7F FF/FF 80 00/00 7F FF FF FF FF FF FF FF'),
        ('BIT STRING', 3, '00/00 00/00 FF/01 00/01 FE/04 F0/04 0F F0/07 00/07 80/07 7F 80/06 FF C0',
         '/01/07/08/FF/01 01/01 FF/04 F8/04 F0 0F/07 40/07 01/07 FF/06 20/08 00/09 00/FF 00'),
        ('NULL', 5, '', '00/05 00'),
        ('OBJECT IDENTIFIER', 6,
         '00/01/2A/7F/81 00/81 01/FF 7F/81 80 00/81 80 80 01/2A 81 80 01/2A 86 48 86 F7 0D/55 1D 0F/00 00',
         '/80/81/FF/80 00/80 01/80 80 01/2A 80/2A 80 01/2A 81/2A FF/2A 81 80/81 00 80 01/2A 86 48 80 01/01 80 00'),
    )
    for name, identifier, passing, refused in judged:
        for texts, stated in ((passing, PASSED % 1), (refused, AT % 0)):
            for text in texts.split('/'):
                label = '%s %s' % (name, text or 'of no octets')
                yield walk(label, element(identifier, octets(text)), stated)


def free_contents():
    others = (
        ('OCTET STRING', '04 02 30 80'),
        ('REAL', '09 01 FF'),
        ('ENUMERATED of no octets', '0A 00'),
        ('ENUMERATED that is not minimal', '0A 02 00 01'),
        ('UTF8String that is none', '0C 01 FF'),
        ('PrintableString with a zero', '13 01 00'),
        ('UTCTime of no octets', '17 00'),
        ('GeneralizedTime of letters', '18 02 41 42'),
        ('context 1 of two octets', '81 02 05 05'),
        ('context 2 that were no INTEGER', '82 02 00 7F'),
        ('context 3 that were no BIT STRING', '83 01 08'),
        ('application 5 with an octet', '45 01 00'),
        ('private 6 that were no OBJECT IDENTIFIER', 'C6 01 80'),
    )
    for name, text in others:
        yield walk('free contents: ' + name, octets(text), PASSED % 1)
    yield walk('a context element is walked inside', octets('A0 03 01 01 FF'), PASSED % 2)
    yield walk('a fault inside a context element', element(0xa0, BAD), AT % 2)
    yield walk('a fault inside an application element', element(0x61, NULL, BAD), AT % 4)
    yield walk('universal 0 inside a private element', octets('E1 02 00 00'), AT % 2)


def cases():
    yield from judged_contents()
    yield from free_contents()
