#!/usr/bin/env python3
"""limits.py [--all] [NAME..]: finds literals that mean a limit, in code, contracts and definitions.

    tools/limits.py            in the repository's root: prints how often each crate spells each limit, in code, in contracts and in definitions
    tools/limits.py --list     also prints each place
    tools/limits.py NAME..     looks only at these crates

A limit has one home, the crate `limits`: its constants are what code uses. A place is counted where a number with the value of a limit stands in any spelling
(1_460, 1460, 0x5B4, 1 << 24, 2 ^ 24, 16_777_217 for a limit and one, 63 for the largest index of an entry), outside of comments and texts. Numbers that have the
value of a limit and mean something else are in ELSEWHERE, each with what it means there. Proofs, Python and scripts aren't read. The status is 1 if code outside
of the home spells a limit.
"""
import os
import pathlib
import re
import sys

HOME = 'limits'

# value, its name in the home, and spellings beyond the decimal and the hexadecimal one
LIMITS = [
    (1 << 24, 'STREAM', [r'1\s*<<\s*24', r'2\s*\^\s*24(?!\s*\+\s*1\b)']),
    ((1 << 24) + 1, 'UNITS', [r'2\s*\^\s*24\s*\+\s*1\b']),
    (65_535, 'BUFFER', [r'u16::MAX']),
    (1_500, 'PACKET', []),
    (1_491, 'MESSAGE', []),
    (1_460, 'SEGMENT', []),
    (128, 'SHORT', []),
    (64, 'SHORTEST_SEGMENT, ENTRIES, PENDING or WAITING', []),
    (63, 'ENTRIES - 1', []),
    (28, 'a Read', []),
    (22, 'a message with a key alone', []),
]

# the two limits that are lengths of messages: only these are excused where a line names a kind
LENGTHS = (28, 22)

# what else a number of this value may mean: crate, file or folder, a part of the line, why
ELSEWHERE = [
    ('seq_arith', 'src/flags.rt', ': u8 =', 'control bits'),
    ('seq_arith', 'specs/declared', '', 'control bits'),
    ('seq_arith', '', 'word_sum', 'one\'s complement sums are modulo 65,535'),
    ('seq_arith', 'src/checksum.rt', '65535', 'one\'s complement sums are modulo 65,535'),
    ('seq_arith', 'specs/Checksum', '65535', 'one\'s complement sums are modulo 65,535'),
    ('segment_codec', 'src/header.rt', '', 'offsets in a header'),
    ('segment_codec', 'src/setting.rt', 'patch_', 'offsets in a header'),
    ('segment_codec', 'src/reading.rt', 'read_', 'offsets in a header'),
    ('tcp_buffers', 'src/timing.rt', 'min(64)', 'the longest interval of a timer, in ticks'),
    ('schedule_text', 'src/line_text.rt', 'HEX_BYTES', 'bytes that are written at a time'),
    ('schedule_text', 'src/spelling.rt', 'first + 65_536', 'the digits of an address'),
    ('replay_seed', 'src/dice.rt', '64', 'how often a generated schedule goes back'),
    ('test_data', '', '', 'drawn numbers, and bytes for cases'),
    ('north_wrap', 'src/service_run.rt', 'SHORT_READ', 'the bytes of a short read'),
    ('schedule_text', 'src/event_line.rt', 'number_in(word, 0, 65_535)', 'a window, as the field holds it'),
    ('schedule_text', 'src/spelling.rt', 'read_short(port', 'a port'),
    ('schedule_text', 'src/line_text.rt', 'put_', 'control bits and the digits of an address'),
    ('line_check', 'src/columns.rt', '0xFFFF', 'a field of 16 bits'),
    ('line_check', 'src/event_words.rt', 'ranged(0, 65_535', 'a window, as the field holds it'),
    ('line_check', 'src/values.rt', 'is_number(65_535', 'a port, and a window'),
    ('replay_seed', 'src/dice.rt', 'WINDOW', 'a window, as the field holds it'),
    ('replay_script', 'src/crashes.rt', 'WINDOW', 'a window, as the field holds it'),
    ('south_wrap', 'src/south.rt', '+ excess).min(65_535)', 'a window, as the field holds it'),
    ('seq_arith', 'src/checksum.rt', '0xFFFF', 'a field of 16 bits'),
    ('ft_model', 'src/grammar.rt', 'events =', 'a schedule in a worked run'),
    ('wire_bench', '', 'window: 65_535', 'a window, as the field holds it'),
    ('node_bench', 'src/node/host.rt', 'window: 65_535', 'a window, as the field holds it'),
    ('connection_script', 'src/peers.rt', 'window: 65_535', 'a window, as the field holds it'),
    ('connection_script', 'src/restarts', 'ECHO, 64', 'how many entries a case has'),
    ('endpoint_script', 'src/clients/hostile.rt', 'below(22)', 'a drawn distance'),
    ('wire_bench', '', ': u32 = 64', 'how many packets or messages a loop has'),
    ('logger_wire', 'src/marks/reading.rt', 'long(bytes, 22)', 'an offset in a message'),
    ('logger_wire', 'src/mark/reading.rt', 'long(bytes, 22)', 'an offset in a message'),
    ('service_script', 'src/bytes', '', 'drawn bytes'),
    ('endpoint_script', 'src/hostile.rt', '% 65_536', 'a window, as the field holds it'),
    ('peer_client', 'src/client.rt', 'room.min(65_535) as u16', 'a window, as the field holds it'),
    ('plain_world', 'src/client.rt', 'room.min(65_535) as u16', 'a window, as the field holds it'),
    ('plain_point', 'src/point.rt', '.min(65_535) as u16', 'a window, as the field holds it'),
    ('plain_point', 'src/sending.rt', 'window.min(65_535)', 'a window, as the field holds it'),
    ('tcp_endpoint', 'src/arrival.rt', 'LONGEST: usize', 'the longest IP packet, whose length has 16 bits'),
    ('forget_wire', 'src/reading.rt', 'long(bytes, 22)', 'an offset in a message'),
    ('line_check', 'src/message.rt', 'Kind::', 'the length of a message of this kind'),
    ('plain_packets', 'src/message.rt', 'Body::', 'the length of a message of this kind'),
    ('logger_wire', 'src/marks/reading.rt', 'MarkKind::Ask', 'the length of a message of this kind'),
    ('wire_bench', 'src/messages.rt', 'is_data', 'the length of a message of this kind'),
    ('wrapped_conn', 'src/reporting.rt', '&mut [0;', 'room for a message of this kind'),
    ('node_serving', 'src/sent.rt', '[0; 64]', 'room for a message without text'),
    ('node_serving', 'src/serving.rt', '', 'room for a packet without text'),
    ('log_script', 'src/random.rt', '', 'drawn messages, with the lengths of their kinds'),
    ('log_script', 'src/twins/messages.rt', '', 'drawn messages'),
    ('node_script', 'src/strike.rt', '1 => 64', 'a drawn distance'),
    ('plain_world', 'src/opening.rt', 'pending_count', 'a clause, in a line that begins as code does'),
    ('web_service', 'specs/Request', 'byte == 63', 'a question mark'),
]
# lines in which such a number is a modulus, a width or an offset
NO_LIMIT = re.compile(r'2\s*\^\s*(?:64|128|22|28)\b|\bu(?:64|128)\b|%\s*(?:64|128)\b|\.\.22\b|\b22\.\.|/\s*64\b')


def number(value):
    """A pattern for a value: decimal with or without underscores, or hexadecimal."""
    digits = str(value)
    decimal = '_?'.join(digits)
    hexadecimal = '_?'.join(f'{value:X}')
    return rf'(?<![\w.^])(?<!\^ ){decimal}(?:_?u(?:8|16|32|64|size))?(?![\w.]\d|\w)|(?<!\w)0x(?:0|_)*{hexadecimal}(?!\w)'


PATTERNS = [(value, name, re.compile('|'.join([*more, number(value)]), re.I)) for value, name, more in LIMITS]


def bare(line, mark):
    """A line without its comment and its texts."""
    line = re.sub(r'b?"(?:[^"\\]|\\.)*"', '""', line)
    return line.split(mark, 1)[0]


def kind_of(path, line):
    if path.endswith('.antt'):
        return 'definition'
    return 'contract' if re.match(r'\s*(?:requires|ensures|ghost|×|→|\()', line) else 'code'


def elsewhere(crate, path, line, value):
    def means(c, p, part, why):
        return crate == c and path.startswith(f'crates/{c}/{p}') and part in line and (value in LENGTHS or why != 'the length of a message of this kind')

    return any(means(*it) for it in ELSEWHERE)


def places(crate):
    for folder, mark, end in (('src', '//', '.rt'), ('specs', '--', '.antt')):
        for top, _, names in sorted(os.walk(f'crates/{crate}/{folder}')):
            for name in sorted(names):
                if not name.endswith(end):
                    continue
                path = f'{top}/{name}'
                for at, text in enumerate(pathlib.Path(path).read_text(encoding='utf-8').splitlines(), 1):
                    line = bare(text, mark)
                    if NO_LIMIT.search(line) and not re.search(r'24|1_?\d{3}|65_?535', line):
                        continue
                    for value, limit, pattern in PATTERNS:
                        for _ in pattern.finditer(line):
                            if not elsewhere(crate, path, line, value):
                                yield path, at, kind_of(path, line), value, limit, text.strip()


def main():
    words = sys.argv[1:]
    listed = '--list' in words
    names = [w for w in words if not w.startswith('--')]
    crates = names or [c for c in sorted(os.listdir('crates')) if os.path.isdir(f'crates/{c}/src')]
    kinds = ('code', 'contract', 'definition')
    total = dict.fromkeys(kinds, 0)
    by_limit = {}
    for crate in crates:
        if crate == HOME:
            continue
        found = list(places(crate))
        counts = {k: sum(1 for f in found if f[2] == k) for k in kinds}
        for k in kinds:
            total[k] += counts[k]
        for f in found:
            by_limit.setdefault(f[4], dict.fromkeys(kinds, 0))[f[2]] += 1
        if found:
            print(f'{crate}: ' + ', '.join(f'{counts[k]} in {k}' for k in kinds if counts[k]))
        if listed:
            for path, at, kind, value, limit, text in found:
                print(f'  {path}:{at}: {kind} {value} ({limit}): {text[:110]}')
    print()
    for limit, counts in by_limit.items():
        print(f'{limit}: ' + ', '.join(f'{counts[k]} in {k}' for k in kinds))
    print('in all: ' + ', '.join(f'{total[k]} in {k}' for k in kinds))
    return 1 if total['code'] else 0


if __name__ == '__main__':
    sys.exit(main())
