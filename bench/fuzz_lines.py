#!/usr/bin/env python3
"""Reads random and mutated signal lines with a second reader, a few lines of Python, and compares what they come to.

    bench/fuzz_lines.py [COUNT] [SEED]                       ./slee, a run for each line (2,000 lines, seed 1)
    bench/fuzz_lines.py --cmd PROGRAM [COUNT] [SEED]         another program
    bench/fuzz_lines.py --definitions FOLDER [COUNT] [SEED]  the definitions of specs/, run by the evaluator in FOLDER

The program plays in a folder that has the deployment of examples/restart. Prints how many lines came to what, and ends with 1 at the first line on which the two differ.
"""
import collections, os, random, re, subprocess, sys

from lines import fresh

ROOT = os.path.dirname(os.path.dirname(os.path.abspath(__file__)))
NAME = re.compile(rb'[a-z][a-z0-9_]{0,63}\Z')
BUILT_IN = {b'activity-end', b'timer', b'service-started', b'profile-added', b'profile-updated', b'profile-removed'}
# The words behind each verb: n a name, e an event, t a moment, r a row, and f any number of fields.
FORMS = {b'start': 'n', b'end': 'n', b'fire': 'nef', b'clock': 't', b'activate': 'n', b'deactivate': 'n',
         b'profile-add': 'nrf', b'profile-update': 'nrf', b'profile-remove': 'nr'}
ESCAPED = set(range(32)) | {0x20, 0x25, 0x7F}


def is_word_text(word):
    for part in re.findall(rb'%..|%.?\Z|[^%]', word, re.S):
        if part[:1] == b'%':
            if not re.match(rb'%[0-9A-F]{2}\Z', part) or int(part[1:], 16) not in ESCAPED:
                return False
        elif part[0] in ESCAPED:
            return False
    return True


def fault_of(line):
    """The first fault of a line, or None."""
    if len(line) > 4096:
        return 'long'
    if any(b < 32 or b == 127 for b in line):
        return 'control'
    try:
        line.decode()
    except UnicodeDecodeError:
        return 'utf8'
    if not line:
        return 'empty'
    verb, *words = line.split(b' ')
    if verb not in FORMS:
        return 'verb'
    form = FORMS[verb]
    many = form.endswith('f')
    need = len(form) - many
    if len(words) < need or (len(words) > need and not many):
        return 'count'
    names = set()
    for kind, word in zip(form.rstrip('f') + 'f' * len(words), words):
        if kind == 'n' and not NAME.match(word):
            return 'name'
        if kind == 'e':
            event, *service = word.split(b'@', 1)
            if not (NAME.match(event) or event in BUILT_IN) or (service and not NAME.match(service[0])):
                return 'name'
        if kind == 't' and not (re.match(rb'(0|[1-9][0-9]*)\Z', word) and int(word) <= 4 * 10 ** 15):
            return 'number'
        if kind == 'r':
            if not word:
                return 'name'
            if not is_word_text(word):
                return 'escape'
        if kind == 'f':
            name, equals, value = word.partition(b'=')
            if not equals or not NAME.match(name) or name in names:
                return 'field'
            names.add(name)
            if not is_word_text(value):
                return 'escape'
    return None


PIECES = [b'start', b'end', b'fire', b'clock', b'activate', b'deactivate', b'profile-add', b'profile-update', b'profile-remove',
          b' ', b' ', b' ', b' ', b'@', b'=', b'=', b'c1', b'invite', b'addr', b'timer', b'activity-end', b'profile-added', b'service-started',
          b'0', b'7', b'01', b'4000000000000000', b'4000000000000001', b'18446744073709551616', b'99999999999999999999999', b'-1', b'+1',
          b'%20', b'%25', b'%0A', b'%7F', b'%41', b'%4g', b'%4', b'%', b'%2a', b'%FF', b'\xc3\xa9', b'\xff', b'\xc3', b'\xed\xa0\x80', b'\xf0\x9f\x98\x80',
          b'\x00', b'\r', b'\t', b'\x7f', b'A', b'a', b'_', b'x' * 63, b'x' * 64, b'z=1', b'z=2', b'', b'~', b'\x80']


def good_line(r):
    name = lambda: r.choice([b'c1', b'c2', b'a', b'x_9', b'z' * 64, b'timer', b'row'])
    text = lambda: b''.join(r.choice([b'a', b'7', b':', b'=', b'@', b'%20', b'%25', b'%0A', b'%7F', b'\xc3\xa9']) for _ in range(r.randrange(5)))
    field = lambda i: (name() if r.random() < .2 else b'f%d' % i) + b'=' + text()
    event = lambda: r.choice([name(), b'activity-end', b'profile-updated']) + (b'@' + name() if r.random() < .3 else b'')
    word = {'n': name, 'e': event, 't': lambda: b'%d' % r.choice([0, 7, 4 * 10 ** 15, r.randrange(10 ** 16)]), 'r': lambda: b'r' + text()}
    verb = r.choice(list(FORMS))
    form = FORMS[verb]
    words = [verb] + [word[kind]() for kind in form.rstrip('f')]
    if form.endswith('f'):
        words += [field(i) for i in range(r.randrange(4))]
    return b' '.join(words)


def mutated(r, line):
    for _ in range(r.choice([0, 1, 1, 1, 2, 3])):
        at = r.randrange(len(line) + 1)
        what = r.randrange(5)
        if what == 0:
            line = line[:at] + r.choice(PIECES) + line[at:]
        elif what == 1:
            line = line[:at] + line[at + 1 + r.randrange(3):]
        elif what == 2:
            line = line[:at] + bytes([r.randrange(256)]) + line[at + 1:]
        elif what == 3:
            words = line.split(b' ')
            words.insert(r.randrange(len(words) + 1), words[r.randrange(len(words))])
            line = b' '.join(words)
        else:
            line = line + b' long=' + b'a' * (4096 - len(line) - 6 + r.choice([0, 0, 1, 2]))
    return line.replace(b'\n', b'')


def lines(count, seed):
    r = random.Random(seed)
    for _ in range(count):
        yield mutated(r, good_line(r)) if r.random() < .8 else b''.join(r.choice(PIECES) for _ in range(r.randrange(9)))


def of_program(program):
    """The kind that a program tells of a text whose second line is the one that is asked for; None where it plays it."""
    def kind(line):
        with fresh() as folder:
            ran = subprocess.run([program, 'play', '1', '1'], input=b'start c1\n' + line + b'\n', cwd=folder, stdout=subprocess.PIPE)
        last = ran.stdout.split(b'\n')[-2].decode()
        told = re.match(r'status 5 bad-signals 2 ([a-z0-9]+)$', last)
        if told and ran.returncode == 5 and ran.stdout.count(b'\n') == 1:
            return told[1]
        return None if (ran.returncode, last) == (11, 'status 11 steps-spent 1') else last
    return kind


def of_definitions(folder):
    """The kind that the definitions tell of a line; where they tell none, its spelling is the line again."""
    sys.path.insert(0, folder)
    import rundefs
    world = rundefs.load(ROOT)
    names = ['signal_of', 'spelled', 'is_signal']
    signal_of, spelled, is_signal = (world.eval('signal_script.specs.Signals.' + name) for name in names)

    def kind(line):
        read = signal_of(tuple(line))
        if read.con.name == 'Err':
            return read.args[0].con.name.lower()
        if bytes(spelled(read.args[0])) != line or not is_signal(read.args[0]):
            return 'another spelling'
        return None
    return kind


def main():
    words = sys.argv[1:]
    program = os.path.join(ROOT, 'slee')
    if words[:1] == ['--cmd']:
        program, words = os.path.abspath(words[1]), words[2:]
    of = of_program(program)
    if words[:1] == ['--definitions']:
        of, words = of_definitions(words[1]), words[2:]
    count, seed = (int(w) for w in (words + ['2000', '1'][len(words):])[:2])
    came = collections.Counter()
    for line in lines(count, seed):
        want, got = fault_of(line), of(line)
        if want != got:
            print('%r: the second reader tells %s, and the other %s' % (line, want, got))
            sys.exit(1)
        came[want or 'good'] += 1
    print(', '.join('%s %d' % pair for pair in sorted(came.items())))


main()
