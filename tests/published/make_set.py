#!/usr/bin/env python3
"""Makes the set of certificates and CRLs in tests/data/made with openssl, and the lists of their places.

  make_set.py    makes new keys, writes every item as DER, and places.tsv; the keys are thrown away

Signatures differ from run to run, so what was made is stored. What verdicts.py and chains.py say of the set does not
depend on the run. places.tsv has the columns image, day, place, kind (1 anchor, 2 link, 3 signer, 4 CRL), flags, file.
"""
import collections
import pathlib
import subprocess
import sys
import tempfile

FOLDER = pathlib.Path(__file__).resolve().parents[1] / 'data' / 'made'

Signed = collections.namedtuple('Signed', 'file kind signing issuer key subject serial start end')
Revocations = collections.namedtuple('Revocations', 'file signing issuer number this_update next_update entries')

UT = '/C=UT/O=Utopia/CN=Country Signing Authority of Utopia'
XO = '/C=XO/O=Xanadu Passport Office/OU=Travel Documents/CN=CSCA Xanadu'
UT_SIGNER = '/C=UT/O=Utopia/CN=Document Signer %d of Utopia'
XO_SIGNER = '/C=XO/O=Xanadu Passport Office/CN=DS Xanadu 0001'

RSA = ['-algorithm', 'RSA', '-pkeyopt', 'rsa_keygen_bits:3072']
EXPLICIT = ['-pkeyopt', 'ec_param_enc:explicit']


def curve(name):
    return ['-algorithm', 'EC', '-pkeyopt', 'ec_paramgen_curve:' + name]


KEYS = {
    'ut-1': RSA, 'ut-2': curve('P-256') + EXPLICIT, 'ut-3': curve('P-384'), 'xo-1': RSA,
    'ut-signer-1': curve('P-256'), 'ut-signer-2': RSA, 'ut-signer-3': curve('brainpoolP256r1') + EXPLICIT,
    'ut-signer-4': curve('P-384') + EXPLICIT, 'ut-signer-5': curve('brainpoolP256r1'), 'xo-signer-1': RSA,
}

# how a key signs
PSS = ['-sigopt', 'rsa_padding_mode:pss', '-sigopt', 'rsa_pss_saltlen:digest', '-md']
SIGNS = {'ut-1': PSS + ['sha256'], 'ut-2': ['-md', 'sha256'], 'ut-3': ['-md', 'sha384'], 'xo-1': PSS + ['sha512']}

ANCHOR, LINK, SIGNER, CRL = 1, 2, 3, 4

REVOKED = '70A1B2C3D4E5F60718293A4B5C6D7E8F90A1B2C3'

CERTIFICATES = [
    Signed('ut-anchor-1', ANCHOR, 'ut-1', None, 'ut-1', UT, '01', '20161201000000Z', '20261130235959Z'),
    Signed('ut-anchor-2', ANCHOR, 'ut-2', None, 'ut-2', UT, '0202', '20210601000000Z', '20360531235959Z'),
    Signed('xo-anchor-1', ANCHOR, 'xo-1', None, 'xo-1', XO, '4B1D', '20240101000000Z', '20510630235959Z'),
    Signed('ut-link-12', LINK, 'ut-1', 'ut-anchor-1', 'ut-2', UT, '0102', '20210601000000Z', '20261130235959Z'),
    Signed('ut-link-23', LINK, 'ut-2', 'ut-anchor-2', 'ut-3', UT, '0203', '20260901000000Z', '20410831235959Z'),
    Signed('ut-signer-1', SIGNER, 'ut-1', 'ut-anchor-1', 'ut-signer-1', UT_SIGNER % 1, '1001', '20210301000000Z',
           '20310228235959Z'),
    Signed('ut-signer-2', SIGNER, 'ut-2', 'ut-anchor-2', 'ut-signer-2', UT_SIGNER % 2, '9A77', '20220101000000Z',
           '20320101000000Z'),
    Signed('ut-signer-3', SIGNER, 'ut-2', 'ut-anchor-2', 'ut-signer-3', UT_SIGNER % 3, REVOKED, '20240501000000Z',
           '20340430235959Z'),
    Signed('ut-signer-4', SIGNER, 'ut-3', 'ut-link-23', 'ut-signer-4', UT_SIGNER % 4, '70A1B2C3D4E5F607',
           '20260901000000Z', '20360831235959Z'),
    Signed('ut-signer-5', SIGNER, 'ut-2', 'ut-anchor-2', 'ut-signer-5', UT_SIGNER % 5, '1005', '20210601000000Z',
           '20261110235959Z'),
    Signed('xo-signer-1', SIGNER, 'xo-1', 'xo-anchor-1', 'xo-signer-1', XO_SIGNER, '1001', '20250101000000Z',
           '20350101000000Z'),
]

# key identifiers that the rules do not ask for are left out once each
NO_OWN_KEY, NO_AUTHORITY_KEY = 'ut-signer-4', 'xo-anchor-1'

# an entry is the moment of revocation, the reason if one is told, and the serial
OLDER = [('250310090000Z', '5C01'), ('260214120000Z,superseded', '5C02')]
CRLS = [
    Revocations('ut-crl-yesterday', 'ut-1', 'ut-anchor-1', '29', '20261101060000Z', '20261201060000Z', OLDER),
    Revocations('ut-crl-today', 'ut-2', 'ut-anchor-2', '2A', '20261115060000Z', '20261215060000Z',
                OLDER + [('261114183000Z,keyCompromise', REVOKED)]),
    Revocations('xo-crl', 'xo-1', 'xo-anchor-1', '07', '20261110000000Z', '20261210000000Z', []),
]

# the second anchor of UT is not enabled yet yesterday; the links stand in the reverse order of their steps
ORDER = ('ut-anchor-1', 'ut-anchor-2', 'xo-anchor-1', 'ut-link-23', 'ut-link-12', 'ut-signer-1', 'ut-signer-2',
         'ut-signer-3', 'ut-signer-4', 'ut-signer-5', 'xo-signer-1')
IMAGES = [
    ('yesterday', 20261114, ('ut-anchor-1', 'xo-anchor-1'), ('ut-crl-yesterday', 'xo-crl')),
    ('today', 20261115, ('ut-anchor-1', 'ut-anchor-2', 'xo-anchor-1'), ('ut-crl-today', 'xo-crl')),
]

AUTHORITY = """keyUsage = critical, keyCertSign, cRLSign
basicConstraints = critical, CA:TRUE, pathlen:0
"""
DOCUMENTS = """keyUsage = critical, digitalSignature
2.23.136.1.1.6.2 = ASN1:SEQUENCE:documents
"""
CONFIG = """
[ca]
default_ca = maker
[maker]
database = index.txt
serial = serial
crlnumber = crlnumber
new_certs_dir = .
unique_subject = no
policy = any_name
default_md = sha256
crl_extensions = of_a_crl
[any_name]
countryName = supplied
[of_a_crl]
authorityKeyIdentifier = keyid:always
[of_a_certificate]
%(first)ssubjectKeyIdentifier = %(own)s
authorityKeyIdentifier = %(authority)s
2.5.29.16 = ASN1:SEQUENCE:key_period
subjectAltName = email:%(letters)s@passports.example, dirName:place
issuerAltName = URI:https://passports.example/%(letters)s, dirName:place
crlDistributionPoints = URI:https://passports.example/%(letters)s.crl
[place]
L = %(letters)sO
[key_period]
from = IMPLICIT:0, GENERALIZEDTIME:%(start)s
to = IMPLICIT:1, GENERALIZEDTIME:%(end)s
[documents]
version = INTEGER:0
types = SET:letters
[letters]
a = PRINTABLESTRING:ID
b = PRINTABLESTRING:P
"""


class Maker:
    """A folder for one run, with the files that openssl keeps between its commands."""

    def __init__(self, folder):
        self.folder = pathlib.Path(folder)

    def write(self, name, text):
        (self.folder / name).write_text(text)

    def openssl(self, *words):
        done = subprocess.run(['openssl', *words], cwd=self.folder, capture_output=True, text=True, check=False)
        if done.returncode:
            sys.exit('openssl %s\n%s' % (' '.join(words), done.stderr))

    def config(self, **values):
        nothing = dict.fromkeys(('first', 'letters', 'own', 'authority', 'start', 'end'), '')
        self.write('config', CONFIG % dict(nothing, **values))

    def der(self, command, name):
        self.openssl(command, '-in', name + '.pem', '-outform', 'DER', '-out', str(FOLDER / (name + '.der')))

    def key(self, name, words):
        self.openssl('genpkey', *words, '-out', name + '.key')

    def certificate(self, one):
        # a key may be used for half of the certificate's time
        middle = '%d%s' % ((int(one.start[:4]) + int(one.end[:4])) // 2, '0101000000Z')
        self.config(first=DOCUMENTS if one.kind == SIGNER else AUTHORITY, letters=one.subject[3:5],
                    own='none' if one.file == NO_OWN_KEY else 'hash',
                    authority='none' if one.file == NO_AUTHORITY_KEY else 'keyid:always', start=one.start, end=middle)
        self.write('index.txt', '')
        self.write('serial', one.serial + '\n')
        self.openssl('req', '-new', '-key', one.key + '.key', '-subj', one.subject, '-out', 'request')
        issuer = ['-cert', one.issuer + '.pem'] if one.issuer else ['-selfsign']
        self.openssl('ca', '-batch', '-notext', '-preserveDN', '-config', 'config', '-extensions', 'of_a_certificate',
                     '-in', 'request', '-keyfile', one.signing + '.key', *issuer, '-startdate', one.start,
                     '-enddate', one.end, '-out', one.file + '.pem', *SIGNS[one.signing])
        self.der('x509', one.file)

    def crl(self, one):
        self.config()
        self.write('index.txt', ''.join('R\t310101000000Z\t%s\t%s\tunknown\t/C=UT\n' % entry for entry in one.entries))
        self.write('crlnumber', one.number + '\n')
        self.openssl('ca', '-gencrl', '-config', 'config', '-keyfile', one.signing + '.key', '-cert',
                     one.issuer + '.pem', '-crl_lastupdate', one.this_update, '-crl_nextupdate', one.next_update,
                     '-out', one.file + '.pem', *SIGNS[one.signing])
        self.der('crl', one.file)


def places():
    kinds = {one.file: one.kind for one in CERTIFICATES}
    kinds.update({one.file: CRL for one in CRLS})
    yield 'image\tday\tplace\tkind\tflags\tfile\n'
    for image, day, enabled, crls in IMAGES:
        for place, name in enumerate(ORDER + crls):
            yield '%s\t%d\t%d\t%d\t%d\t%s.der\n' % (image, day, place, kinds[name], name in enabled, name)


def main(words):
    if words:
        sys.exit(__doc__)
    with tempfile.TemporaryDirectory() as folder:
        maker = Maker(folder)
        for name, how in KEYS.items():
            maker.key(name, how)
        for one in CERTIFICATES:
            maker.certificate(one)
        for one in CRLS:
            maker.crl(one)
    (FOLDER / 'places.tsv').write_text(''.join(places()))
    print('%d certificates, %d CRLs' % (len(CERTIFICATES), len(CRLS)))


if __name__ == '__main__':
    main(sys.argv[1:])
