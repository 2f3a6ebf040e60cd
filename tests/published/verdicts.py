#!/usr/bin/env python3
"""Checks the signature of every item of tests/data/made with the key of every other, for each image.

  verdicts.py           writes verdicts.tsv
  verdicts.py --check   writes nothing; exit status 1 where verdicts.tsv is not what is found now

verdicts.tsv has the columns image, place and verdicts: the row of the item at that place, one digit for each place that
may be signed by it, 1 where the signature verifies. openssl decides; the package cryptography must agree wherever it
reads the key. A CRL has no key: its row is zeros. Where one of the two is not installed, --check says that nothing was
compared and ends with status 0.
"""
import pathlib
import subprocess
import sys
import tempfile

from made import images, octets, store
from reader import needed

needed(sys.argv[1:], command=True)

from cryptography import x509
from cryptography.exceptions import InvalidSignature, UnsupportedAlgorithm
from cryptography.hazmat.primitives.asymmetric import ec, padding, rsa

CRL = 4


class Item:
    def __init__(self, folder, place):
        read = x509.load_der_x509_crl if place.kind == CRL else x509.load_der_x509_certificate
        self.name, self.read, self.path = place.file, read(octets(place.file)), folder / place.file
        self.signed = self.read.tbs_certlist_bytes if place.kind == CRL else self.read.tbs_certificate_bytes
        self.hash = self.read.signature_hash_algorithm
        self.parameters = self.read.signature_algorithm_parameters
        self.pss = isinstance(self.parameters, padding.PSS)
        self.file('signed').write_bytes(self.signed)
        self.file('signature').write_bytes(self.read.signature)
        self.has_key = place.kind != CRL
        if self.has_key:
            key = openssl('x509', '-inform', 'DER', '-noout', '-pubkey', data=octets(place.file)).stdout
            self.file('key').write_bytes(key)

    def file(self, what):
        return self.path.with_suffix('.' + what)

    def key(self):
        """The key, or None where the package does not read it."""
        try:
            return self.read.public_key()
        except (ValueError, UnsupportedAlgorithm):
            return None


def openssl(*words, data=b''):
    return subprocess.run(['openssl', *words], input=data, capture_output=True, check=False)


def by_openssl(signer, signed):
    pss = ['-sigopt', 'rsa_padding_mode:pss', '-sigopt', 'rsa_pss_saltlen:digest'] if signed.pss else []
    done = openssl('dgst', '-' + signed.hash.name, '-verify', str(signer.file('key')), *pss, '-signature',
                   str(signed.file('signature')), str(signed.file('signed')))
    return done.returncode == 0 and done.stdout == b'Verified OK\n'


def by_cryptography(key, signed):
    try:
        if isinstance(key, rsa.RSAPublicKey) and signed.pss:
            key.verify(signed.read.signature, signed.signed, signed.parameters, signed.hash)
        elif isinstance(key, ec.EllipticCurvePublicKey) and not signed.pss:
            key.verify(signed.read.signature, signed.signed, ec.ECDSA(signed.hash))
        else:
            return False
    except InvalidSignature:
        return False
    return True


def verdict(signer, signed):
    if not signer.has_key:
        return False
    found, key = by_openssl(signer, signed), signer.key()
    if key is not None and by_cryptography(key, signed) != found:
        sys.exit('%s, signed by %s: openssl and cryptography disagree' % (signed.name, signer.name))
    return found


def table():
    yield 'image\tplace\tverdicts\n'
    with tempfile.TemporaryDirectory() as folder:
        for image, places in images().items():
            items = [Item(pathlib.Path(folder), place) for place in places]
            for place, signer in enumerate(items):
                yield '%s\t%d\t%s\n' % (image, place, ''.join('01'[verdict(signer, signed)] for signed in items))


if __name__ == '__main__':
    store(sys.argv[1:], 'verdicts.tsv', ''.join(table()), __doc__)
