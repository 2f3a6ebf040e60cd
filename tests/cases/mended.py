"""Rows of mended items: beside cases that break a rule stands the same item without its fault."""
from record import Case


def beside(found, told):
    """The cases, and after the last of those that break the same rule and come from the same good item a case of that
    item. Cases that break several rules are taken together. `told` gives the answer for a case's mended item."""
    found = list(found)
    groups = {}
    for case in found:
        if case.broken:
            groups.setdefault(base(case), []).append(case)
    for case in found:
        yield case
        group = groups.get(base(case), [])
        if group and case is group[-1]:
            yield row(group, told)


def base(case):
    return case.broken if len(case.broken) == 1 else len(case.broken) > 1, case.kind, case.numbers, case.mended


def row(group, told):
    first = group[0]
    kind, _, rest = first.label.partition(': ')
    which = 'rule %d' % first.broken[0] if len(first.broken) == 1 else 'every rule'
    more = ' and %d more' % (len(group) - 1) if len(group) > 1 else ''
    label = '%s: %s mended: %s%s (built)' % (kind, which, rest.removesuffix(' (built)'), more)
    answer = told(first)
    assert answer.startswith('passed'), (label, answer)
    case = Case(label, first.kind, answer, first.mended, first.numbers)
    case.mends = first.broken
    return case


def faults(found, kind, rules):
    """Rules that no mended row stands for, and cases that have no mended row."""
    rows = {base_of_row(case) for case in found if case.mends}
    for rule in range(1, rules + 1):
        if not any(case.kind == kind and case.mends == (rule,) for case in found):
            yield 'kind %d: no mended row for rule %d' % (kind, rule)
    for case in found:
        if case.kind == kind and case.broken and base(case) not in rows:
            yield '%s: no mended row' % case.label


def base_of_row(case):
    return case.mends if len(case.mends) == 1 else True, case.kind, case.numbers, case.item
