"""The letters of version 2 by the rules paper: those that are true, the moves from one version to the other, and the check."""
import oracle_certificate
import oracle_crl
import oracle_image
from refused import Refused

CRL = oracle_image.KINDS['crl']


def true_letters(kind, octets):
    """Those that an item reports where it passes its profile for its kind, else two zeros."""
    try:
        fields = oracle_crl.judge(octets) if kind == CRL else oracle_certificate.judge(octets, kind)
    except Refused:
        return b'\0\0'
    return fields.letters.encode('ascii')


def items(image):
    """Entry and octets of each item of a good image."""
    return [(entry, image[entry.offset:][:entry.length]) for entry in oracle_image.index(image)]


def moved(image, version):
    """The image in that version; only one of the other version is read."""
    day = oracle_image.opened(image, (3 - version,))[1]
    found = items(image)
    kinds, flags, lengths = ([entry[field] for entry, _ in found] for field in range(3))
    letters = [true_letters(entry.kind, octets) if version == 2 else b'\0\0' for entry, octets in found]
    packed = b''.join(octets for _, octets in found)
    return oracle_image.written(packed, kinds, flags, lengths, b''.join(letters), version, day)


def move(image, version, out):
    return oracle_image.lent(moved(image, version), out)


def all_true(image):
    """Whether each item of an image of version 2 has its true letters."""
    oracle_image.opened(image, (2,))
    return all(bytes([entry.first, entry.second]) == true_letters(entry.kind, octets) for entry, octets in items(image))
