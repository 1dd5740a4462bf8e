"""Counts the places of docs/DESIGN-PASS.md in src/: python3 tools/design.py [-v] [TREE]. With -v each place is printed."""
import glob, os, re, sys

args = [a for a in sys.argv[1:] if a != '-v']
loud = '-v' in sys.argv
tree = args[0] if args else '.'
files = sorted(glob.glob(os.path.join(tree, 'crates/*/src/*.rt')))
text = {os.path.relpath(f, tree): open(f, encoding='utf-8').read() for f in files}

REFUSALS = ('BROKEN BAD_NUMBER NO_SLOT NOT_PENDING NO_ATTEMPT NOT_OUT KEPT_ON_DONE NO_RETRY HOLLOW NO_GROUP GROUPS_FULL SEALED NOT_DRAINED '
            'TOO_MANY_BINDINGS BAD_OUTCOME BAD_LOG LOG_FULL BAD_TEXT NO_ID NOTHING_KEPT NO_FURTHER_ATTEMPT').split()


def lines(pattern, skip=r'^\s*(//|(pub )?use )'):
    """Each line that the pattern meets, outside comments and imports."""
    found = []
    for name, body in text.items():
        for number, line in enumerate(body.split('\n'), 1):
            if not re.search(skip, line) and re.search(pattern, line):
                found.append((name, number, line.strip()))
    return found


def spans(pattern):
    """Each place that the pattern meets, over lines."""
    found = []
    for name, body in text.items():
        for m in re.finditer(pattern, body, flags=re.M | re.S):
            found.append((name, body[:m.start()].count('\n') + 1, m.group(0).split('\n')[0].strip()))
    return found


def own_enums():
    """Enums in which one variant says that something is there or done, and the others that it is not, or why."""
    found = []
    for name, number, _ in spans(r'^(pub )?enum \w+ \{.*?^\}'):
        body = '\n'.join(text[name].split('\n')[number - 1:])
        body = body[:body.index('\n}')]
        variants = re.findall(r'^    (\w+)', body, flags=re.M)
        if len(variants) < 4 and any(re.match(r'(Refused|Missing|Full|Free|Nothing|No[A-Z]\w*|Bad\w*)$', v) for v in variants):
            found.append((name, number, re.search(r'enum (\w+)', body).group(1)))
    return found


POINTS = [
    ('1 own enums of the shape of Option or Result', own_enums()),
    ('1 refusals as numbers: constants and their uses', lines(r'\b(' + '|'.join(REFUSALS) + r')\b')),
    ('1 refusals as numbers: fields, parameters, tests for 0', lines(r'refusal: u64|refusal (!=|==) 0\b|refusal: 0\b|refusal\) (!=|==) 0\b|Refused\(u64|_refusal\(.*\) -> u64')),
    ('1 kinds of rows as numbers', lines(r'\b(REGISTER|LAND|POP|COMPLETE|RETRY|ADMIT|END|CANCEL)\b')),
    ('1 a flag with a value beside it', spans(r'^pub struct \w+ \{[^}]*\b(fits|changed|refusal): (bool|u64)[^}]*\}')),
    ('2 answer structs that differ in a type', spans(r'^pub struct \w*(Answer|Recorded|Reading)\b(?!<)[^}]*\}')),
    ('2 a test that each call of a kind repeats', spans(r'if !(well_formed\(q\)|well_grouped\(g\)|sound\(queue\)|sound\(w\)) \{')),
    ('2 a step of one group, put back', lines(r'put_queue\(')),
    ('2 a recorded call, noted', lines(r'= note\(|match note\(')),
    ('3 loops that count by hand', lines(r'^\s*(while|loop)\b')),
    ('4 equality, order and conversion by hand', lines(r'^(pub )?fn (differ|same_ticket|same_row|is_unnumbered|is_unmarked|is_blank|phase_number|phase_at|event_number|kind_at|set_kind|set_phase|is_yes|say|negate)\b')),
    ('4 fields written again: x: x', lines(r'^\s+(\w+): \1,$')),
    ('4 if .. return false', spans(r'if [^{;]*\{\n\s+return false;\n\s+\}')),
    ('5 a fact in contracts: sound words', lines(r'requires \{.*is_sound')),
    ('5 parameters that travel together: log and used', spans(r'log: &mut \[u64\],\s+used: u64')),
    ('5 parameters that travel together: heading and bindings', spans(r'heading: Heading,\s+bindings: &\[u64\]')),
    ('6 buffers with a length beside them', spans(r'\[u64; (64|16)\],\n\s+(//[^\n]*\n\s+)?pub (taken|count|bound|listed)\b')),
    ('7 switches on which step to run', spans(r'^pub enum (Question|Subject|Event) ')),
]

for name, places in POINTS:
    print('%4d  %s' % (len(places), name))
    if loud:
        for file, number, line in places:
            print('        %s:%d: %s' % (file, number, line))
