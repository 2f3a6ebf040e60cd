"""The rules that an item breaks, as the package cryptography and `openssl asn1parse` show it.

Nothing here is from the library or from the reader in tests/cases. of_certificate and of_crl give a dictionary from the
number of a rule to what was seen. What a reader refuses to read at all is told under rule 1.
"""
import re

from cryptography import x509
from cryptography.x509.oid import ExtensionOID

from asn1parse import Printed

ANCHOR, LINK, SIGNER, CRL = 'anchor', 'link', 'signer', 'crl'

KEY_USAGE, CONSTRAINTS = ExtensionOID.KEY_USAGE.dotted_string, ExtensionOID.BASIC_CONSTRAINTS.dotted_string
SUBJECT_KEY = ExtensionOID.SUBJECT_KEY_IDENTIFIER.dotted_string
AUTHORITY_KEY = ExtensionOID.AUTHORITY_KEY_IDENTIFIER.dotted_string
CRL_NUMBER = ExtensionOID.CRL_NUMBER.dotted_string
DOCUMENT_TYPES = '2.23.136.1.1.6.2'
FOUR = ('2.5.29.16', '2.5.29.17', '2.5.29.18', '2.5.29.31')
NAMES = {
    KEY_USAGE: 'keyUsage', CONSTRAINTS: 'basicConstraints', SUBJECT_KEY: 'subjectKeyIdentifier',
    AUTHORITY_KEY: 'authorityKeyIdentifier', CRL_NUMBER: 'cRLNumber', DOCUMENT_TYPES: 'documentTypeList',
    '2.5.29.16': 'privateKeyUsagePeriod', '2.5.29.17': 'subjectAltName', '2.5.29.18': 'issuerAltName',
    '2.5.29.31': 'cRLDistributionPoints', '2.5.29.27': 'deltaCRLIndicator', '2.5.29.28': 'issuingDistributionPoint',
    '2.5.29.29': 'certificateIssuer',
}
USAGES = ('digital_signature', 'content_commitment', 'key_encipherment', 'data_encipherment', 'key_agreement',
          'key_cert_sign', 'crl_sign')


def called(name):
    return NAMES.get(name, name)


class Seen:
    """What was seen against each rule."""

    def __init__(self):
        self.rules = {}

    def add(self, rule, *texts):
        if texts:
            self.rules.setdefault(rule, []).extend(texts)

    def unless(self, holds, rule, text):
        if not holds:
            self.add(rule, text)

    def told(self):
        return {rule: '; '.join(self.rules[rule]) for rule in sorted(self.rules)}


def algorithms(seen, rule, printed, inner, outer):
    seen.unless(printed.whole(inner) == printed.whole(outer), rule, 'the two algorithms differ')


def countries(seen, rule, printed, names):
    values = []
    for what, name in names:
        found = printed.after(name, 'countryName')
        values += [one.value for one in found]
        if len(found) != 1:
            seen.add(rule, '%s has %d countryName' % (what, len(found)))
        elif found[0].type != 'PRINTABLESTRING':
            seen.add(rule, '%s country is a %s' % (what, found[0].type))
        elif not re.fullmatch('[A-Z]{2}', found[0].value):
            seen.add(rule, '%s country is "%s"' % (what, found[0].value))
    seen.unless(len(set(values)) <= 1, rule, 'two countries, %s' % ' and '.join(values))


def times(seen, rule, rows):
    for row in rows:
        if row.type == 'UTCTIME':
            seen.unless(re.fullmatch(r'\d{12}Z', row.value), rule, 'UTCTime %s' % row.value)
        else:
            seen.unless(re.fullmatch(r'\d{14}Z', row.value) and row.value[:4] >= '2050', rule,
                        'GeneralizedTime %s' % row.value)


def usage(seen, extension, role):
    if extension is None:
        seen.add(9, 'no keyUsage')
        return
    seen.unless(extension.critical, 9, 'keyUsage is not critical')
    found = [name for name in USAGES if getattr(extension.value, name)]
    wanted = ['digital_signature'] if role == SIGNER else ['key_cert_sign', 'crl_sign']
    seen.unless(found == wanted, 9, 'keyUsage has %s' % ' and '.join(found))


def constraints(seen, extension, role):
    if role == SIGNER:
        seen.unless(extension is None, 10, 'basicConstraints is there')
    elif extension is None:
        seen.add(10, 'no basicConstraints')
    else:
        seen.unless(extension.critical, 10, 'basicConstraints is not critical')
        found = extension.value
        seen.unless(found.ca and found.path_length == 0, 10, 'basicConstraints has ca %s and path length %s' % (
            found.ca, found.path_length))


def key_identifiers(seen, own, authority, role):
    for extension, name, roles in ((own, SUBJECT_KEY, (ANCHOR, LINK)), (authority, AUTHORITY_KEY, (LINK, SIGNER))):
        if extension is None:
            seen.unless(role not in roles, 11, 'no %s' % called(name))
        else:
            seen.unless(not extension.critical, 11, '%s is critical' % called(name))
    if authority is not None:
        seen.unless(authority.value.key_identifier is not None, 11, 'authorityKeyIdentifier without key identifier')


def document_types(seen, extension):
    if extension is None:
        seen.add(13, 'no documentTypeList')
        return
    seen.unless(not extension.critical, 13, 'documentTypeList is critical')
    shown = ' '.join('%s%s' % (row.type, ':' + row.value if row.value else '')
                     for row in Printed(extension.value.value).rows)
    seen.unless(re.fullmatch('SEQUENCE INTEGER:00 SET( PRINTABLESTRING:..?)+', shown), 13,
                'documentTypeList is %s' % shown)


def extensions_of(item, seen, rule):
    """The extensions by OID, or None where the reader refuses them."""
    try:
        return {one.oid.dotted_string: one for one in item.extensions}
    except x509.DuplicateExtension as fault:
        seen.add(rule, '%s stands twice' % called(fault.oid.dotted_string))
    except ValueError as fault:
        seen.add(rule, 'cryptography refuses the extensions: %s' % fault)
    return None


def loaded(load, octets):
    """The item as both readers have it, or the rule that keeps them from reading it."""
    try:
        return load(octets), Printed(octets), None
    except x509.InvalidVersion as fault:
        return None, None, {2: 'version number is %d' % fault.parsed_version}
    except ValueError as fault:
        return None, None, {1: 'not read: %s' % fault}


def of_certificate(octets, role):
    seen = Seen()
    item, printed, fault = loaded(x509.load_der_x509_certificate, octets)
    if fault:
        return fault
    tbs, outer, _ = printed.members(printed.rows[0])
    _, serial, inner, issuer, validity, subject, _, *rest = printed.members(tbs)
    seen.unless(item.version == x509.Version.v3, 2, 'version is %s' % item.version.name)
    seen.unless(item.serial_number > 0 and item.serial_number.bit_length() < 160, 3, 'serial is %s' % serial.value)
    algorithms(seen, 4, printed, inner, outer)
    countries(seen, 5, printed, (('issuer', issuer), ('subject', subject)))
    seen.unless(len(rest) == 1, 6, 'a unique identifier is there')
    times(seen, 7, printed.members(validity))
    seen.unless(item.not_valid_before_utc <= item.not_valid_after_utc, 7, 'start is after end')
    extensions = extensions_of(item, seen, 8)
    if extensions is None:
        return seen.told()
    seen.unless(extensions, 8, 'no extensions')
    usage(seen, extensions.get(KEY_USAGE), role)
    constraints(seen, extensions.get(CONSTRAINTS), role)
    key_identifiers(seen, extensions.get(SUBJECT_KEY), extensions.get(AUTHORITY_KEY), role)
    seen.add(12, *('no ' + called(name) for name in FOUR if name not in extensions))
    seen.add(12, *(called(name) + ' is critical' for name in FOUR if name in extensions and extensions[name].critical))
    if role == SIGNER:
        document_types(seen, extensions.get(DOCUMENT_TYPES))
    seen.add(14, *(called(name) + ' is critical' for name, one in extensions.items()
                   if one.critical and name not in (KEY_USAGE, CONSTRAINTS)))
    return seen.told()


def of_crl(octets):
    seen = Seen()
    item, printed, fault = loaded(x509.load_der_x509_crl, octets)
    if fault:
        return fault
    tbs, outer, _ = printed.members(printed.rows[0])
    members = printed.members(tbs)
    types = ' '.join(row.type for row in members)
    if not re.fullmatch(r'INTEGER SEQUENCE SEQUENCE \w+TIME \w+TIME( SEQUENCE)? cont \[ 0 \]', types):
        return {1: 'the members are %s' % types}
    version, inner, issuer, *both, _ = members[:5] + members[-1:]
    listing = members[5:-1]
    seen.unless(version.value == '01', 2, 'version number is %s' % version.value)
    algorithms(seen, 3, printed, inner, outer)
    countries(seen, 4, printed, (('issuer', issuer),))
    times(seen, 5, both + [row for one in listing for row in printed.inside(one)
                           if row.type in ('UTCTIME', 'GENERALIZEDTIME') and row.depth == one.depth + 2])
    seen.unless(item.last_update_utc <= item.next_update_utc, 5, 'this update is after next update')
    seen.unless(not listing or printed.members(listing[0]), 6, 'the entry list is empty')
    extensions = extensions_of(item, seen, 7)
    if extensions is None:
        return seen.told()
    seen.add(7, *('no ' + called(name) for name in (AUTHORITY_KEY, CRL_NUMBER) if name not in extensions))
    seen.add(8, *(called(name) + ' is critical' for name, one in extensions.items() if one.critical))
    for place, entry in enumerate(item):
        of_entry = extensions_of(entry, seen, 8) or {}
        seen.add(8, *('%s of entry %d is critical' % (called(name), place) for name, one in of_entry.items()
                      if one.critical))
    return seen.told()
