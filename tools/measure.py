#!/usr/bin/env python3
"""Measures what docs/PERFORMANCE.md and docs/MEMORY.md tell: measure WORD ..

  count PROGRAM [ROW..]              counts what crates/bench_messages/out/bench_messages does beside plain C that does the same on
                                     the same octets: builds plain_c twice (gcc -O2, and clang -O3 for x86-64-v2, as the program
                                     is built), runs all under callgrind with two numbers of turns each, and prints for each row
                                     the difference for one unit: the program's instructions, those of both builds of C, and the
                                     ratios to them; also of two calls of the library for C, where it is built
  messages COUNT FOLDER              writes the octets that it works on, of so many elements
  time PROGRAM [ROUNDS]              times `ua serve` over loopback: a client in C (plain_c/load.c) reads and writes nodes of a table of
                                     1,000, and reads an array of a megabyte: of `ua serve`, with --at-once and without, and of an echo
                                     in C that only gives as many octets for as many, in turns; and what idle connections take
  allocations [--input FILE] PROGRAM [WORD..]    runs a program once for each of its allocations, with that one refused (preload.c),
                                     up to the first run that meets none: for each kind of end how often, the numbers of the first
                                     allocations, status, the last line of standard error, and how its output compares with that
                                     of a run with ample memory (same, a beginning of it, or other)

Times differ from machine to machine and from run to run: tell all rounds, and what ran beside them.
"""
from __future__ import annotations

import os
import re
import struct
import subprocess
import sys
import tempfile
from collections.abc import Callable

sys.dont_write_bytecode = True
from kit import kit_folder
from sockets import ANSWERED, NULL, PORT, PUMP, SENT, TOP, Program, Talk, chunks, most_memory, node_file

PLAIN_C = os.path.join(TOP, 'tools/plain_c')

# ---- instructions

MOMENT = 132000000000000000

def text(octets: bytes) -> bytes:
    return struct.pack('<I', len(octets)) + octets

def name(number: int) -> bytes:
    return b'Plant.Area1.Pump%04d.Flow' % number

def request_of(kind: int, handle: int, front: bytes, count: int, rest: Callable[[int], bytes]) -> bytes:
    """A request over so many nodes."""
    head = struct.pack('<BBH4sqII', 1, 0, kind, b'\x01\x02\x01\0', MOMENT, handle, 0) + NULL + bytes(7)
    items = b''.join(b'\3\1\0' + text(name(i)) + struct.pack('<I', 13) + NULL + rest(i) for i in range(count))
    return head + front + struct.pack('<I', count) + items

def read_request(handle: int, count: int) -> bytes:
    return request_of(631, handle, struct.pack('<dI', 0.0, 2), count, lambda i: bytes(2) + NULL)

def write_request(handle: int, count: int) -> bytes:
    return request_of(673, handle, b'', count, lambda i: struct.pack('<BBi', 1, 6, i * 7))

def read_response(handle: int, count: int) -> bytes:
    values = b''.join(struct.pack('<BBiqq', 0x0D, 6, i * 1000, MOMENT, MOMENT) for i in range(count))
    return struct.pack('<BBHqIIB', 1, 0, 634, MOMENT, handle, 0, 0) + NULL + bytes(3) + struct.pack('<I', count) + values + NULL

def stream(begun: list[bytes], messages: int, message: Callable[[int, int], bytes], nodes: int) -> bytes:
    """What one side sends: what opens a connection and a session, and messages over so many nodes each."""
    return b''.join(begun[:4]) + b''.join(chunks(message(4 + i, nodes), 4 + i, size=1 << 20)[0] for i in range(messages))

def files(elements: int = 1000, messages: int = 800) -> dict[str, bytes]:
    """What is worked on, by the names of its files."""
    numbers = range(elements)

    def array(kind: int, each: Callable[[int], bytes]) -> bytes:
        return struct.pack('<BI', 0x80 + kind, elements) + b''.join(each(i) for i in numbers)
    return {
        'booleans': array(1, lambda i: bytes([i % 2])), 'doubles': array(11, lambda i: struct.pack('<d', i / 2)),
        'int32s': array(6, lambda i: struct.pack('<i', i * 3)), 'strings': array(12, lambda i: text(name(i))),
        'texts': array(12, lambda i: text(b'%04d' % (i % 10000))), 'nulls': array(24, lambda i: b'\0'),
        'response': read_response(5, elements), 'request': read_request(5, elements),
        'small': read_request(5, 1), 'small-response': read_response(5, 1),
        'client': stream(SENT, messages, read_request, 1), 'client-large': stream(SENT, 12, read_request, elements),
        'client-writes': stream(SENT, messages, write_request, 1), 'client-writes-large': stream(SENT, 12, write_request, elements),
        'server': stream(ANSWERED, messages, read_response, 1), 'server-large': stream(ANSWERED, 12, read_response, elements),
        'nodes': b''.join(b'ns=1;s=%s\trw\tFlow\tInt32\t%d\n' % (name(i), i * 1000) for i in numbers),
    }

def write_files(folder: str, made: dict[str, bytes]) -> None:
    for file, octets in made.items():
        with open(f'{folder}/{file}', 'wb') as out:
            out.write(octets)

# The row; the words of bench_messages and those of C, in which a name of a file stands for it; the turns of the
# two runs, and how many units a turn has, of each.
WAYS = (('read', 'dec'), ('write', 'enc'))
ROWS = [
    *[(f'{it}-{way}', f'{way} {it} N', f'variant-{c} {it} N', (2, 12, 1000), (2, 12, 1000))
      for it in ('int32s', 'booleans', 'doubles', 'strings') for way, c in WAYS],
    *[(f'{it}-{way}', f'{way}-{it}-body {it} N', f'{it}-{c} {it} N', (2, 12, 1000), (2, 12, 1000)) for it in ('response', 'request') for way, c in WAYS],
    *[(f'small-{it}-{way}', f'{way}-{it}-body small{"-response" * (it == "response")} N', f'{it}-{c} small{"-response" * (it == "response")} N',
       (100, 600, 1), (100, 600, 1)) for it in ('request', 'response') for way, c in WAYS],
    ('load', 'load nodes N', 'load nodes N', (1, 3, 1000), (1, 3, 1000)),
    ('read-item', 'read-item request N nodes', 'read_item request N nodes', (2, 12, 1000), (2, 12, 1000)),
    ('cut', 'cut client-large N', 'cut client-large N 8168', (2, 12, 'client-large'), (2, 12, 'client-large')),
    ('frames', 'frames client-large N', 'frames client-large N 4096', (2, 7, 'client-large'), (2, 7, 'client-large')),
    ('channel', 'channel client N', 'channel client N 4096', (100, 600, 1), (100, 600, 1)),
    ('step', 'step client N nodes', 'step client N nodes', (100, 600, 1), (100, 600, 1)),
    ('step-large', 'step client-large N nodes', 'step client-large N nodes', (6, 11, 1000), (6, 11, 1000)),
    ('step-write', 'step client-writes N nodes', 'step client-writes N nodes', (100, 600, 1), (100, 600, 1)),
    ('step-write-large', 'step client-writes-large N nodes', 'step client-writes-large N nodes', (6, 11, 1000), (6, 11, 1000)),
    ('connection', 'connection client N nodes', 'step client N nodes', (100, 600, 1), (100, 600, 1)),
    ('set', 'set request N nodes', 'set request N nodes', (2, 12, 1000), (2, 12, 1000)),
    ('call', 'call server N small', 'call server N small', (100, 600, 1), (100, 600, 1)),
    ('call-all', 'call-all server N small', 'call_all server N small', (2, 12, 64), (128, 768, 1)),
    ('dissect', 'dissect client N', 'dissect client N client', (1, 3, 800), (1, 3, 800)),
    ('dissect-server', 'dissect-server server N', 'dissect server N server', (1, 3, 800), (1, 3, 800)),
    ('fields', 'fields client-large N', None, (1, 3, 48000), (1, 3, 48000)),
    ('fields-server', 'fields-server server-large N', None, (1, 3, 72000), (1, 3, 72000)),
    ('plain-doubles', 'plain doubles N', 'plain doubles N', (2, 12, 1000), (2, 12, 1000)),
    ('dissect-large', 'dissect-server server-large N', 'dissect server-large N server', (1, 3, 12000), (1, 3, 12000)),
]

# The calls of the C library; the words of steps.c, and the turns of the two runs.
CALLS = [('ua_connection_step', 'N', (100, 600)), ('ua_node_set', '1 N', (100, 600))]
COMPILERS = [['gcc', '-O2'], ['clang', '-O3', '-march=x86-64-v2']]

def counted(words: list[str], within: str = '') -> int:
    """The instructions of a run, or those of its calls of one function."""
    ran = subprocess.run(
        ['valgrind', '--tool=callgrind', '--callgrind-out-file=/dev/null', *[f'--toggle-collect={within}'] * bool(within), *words],
        capture_output=True, text=True, check=False,
    )
    found = re.search(r'Collected : (\d+)', ran.stderr)
    if ran.returncode or not found:
        sys.exit(f'{" ".join(words)}: {ran.stdout}{ran.stderr}')
    return int(found.group(1))

def unit(program: str, words: str, turns: tuple[int, int, int | str], folder: str) -> float:
    """The instructions of a unit: the difference of two runs."""
    low, high, units = turns
    if isinstance(units, str):
        units = os.path.getsize(f'{folder}/{units}')
    named = [
        f'{folder}/{word}' if os.path.exists(f'{folder}/{word}') and place else word
        for place, word in enumerate(words.split())
    ]
    runs = [counted([program] + [str(n) if w == 'N' else w for w in named]) for n in (low, high)]
    return (runs[1] - runs[0]) / ((high - low) * units)

def count_calls(folder: str, wanted: list[str]) -> None:
    """Prints what a call of the C library costs, where it is built."""
    calls = [it for it in CALLS if not wanted or it[0] in wanted]
    library = f'{TOP}/crates/ua_c/out/libua_c.a'
    if not calls or not os.path.exists(library):
        return
    steps = f'{folder}/steps'
    subprocess.run(['gcc', '-O2', f'-I{TOP}/crates/ua_c/include', f'{TOP}/examples/c/steps.c', library, f'{kit_folder()}/c/liblibc_c.a', '-o', steps], check=True)
    for call, words, turns in calls:
        low, high = [counted([steps] + [str(n) if it == 'N' else it for it in words.split()], call) for n in turns]
        print(f'{call:22} {(high - low) / (turns[1] - turns[0]):10.2f}', flush=True)

def count_rows(program: str, folder: str, wanted: list[str]) -> None:
    """Prints for each row the instructions of a unit: the program's, those of C, and the ratios to them."""
    builds = [f'{folder}/{compiler[0]}-built' for compiler in COMPILERS]
    for compiler, built in zip(COMPILERS, builds):
        for source in ('bench2', 'bench3'):
            subprocess.run([*compiler, '-o', f'{built}-{source}', f'{PLAIN_C}/{source}.c'], check=True)
    for row, ours, theirs, turns, their_turns in ROWS:
        if wanted and row not in wanted:
            continue
        a = unit(program, ours, turns, folder)
        source = 'bench3' if theirs and theirs.split()[0] in ('set', 'plain') else 'bench2'
        plain = [unit(f'{built}-{source}', theirs, their_turns, folder) for built in builds if theirs]
        ratios = [f'{a / b:6.2f}' for b in plain]
        print(f'{row:22} {a:10.2f}', *(f'{b:10.2f}' for b in plain), *ratios, flush=True)

# ---- requests a second

NODES, ELEMENTS = 1000, 262144
# What is asked, how often, in groups of how many, of how many nodes each.
Row = tuple[str, int, int, int]
TIMED: list[Row] = [('read', 60000, 1, 1), ('read', 96000, 64, 1), ('read', 2000, 1, NODES), ('write', 96000, 64, 1), ('array', 1000, 1, 1)]

def told(words: list[str]) -> re.Match[str]:
    """What the client in C tells: the octets up and down of a request, and the requests a second."""
    out = subprocess.run(words, check=True, capture_output=True, text=True).stdout
    if 'WRONG' in out:
        raise SystemExit('measure: a wrong answer: ' + out)
    found = re.search(r'up +(\d+) down +(\d+) .*: +(\d+)/s', out)
    assert found, out
    return found

def asked(load: str, port: int, server: subprocess.Popen[bytes], row: Row) -> re.Match[str]:
    kind, count, group, nodes = row
    table_of = '1' if kind == 'array' else str(NODES)
    what = 'write' if kind == 'write' else 'read'
    return told([load, str(port), str(count), str(group), str(nodes), what, '0', table_of, str(server.pid)])

def of_program(load: str, program: str, nodes: str, row: Row, *options: str) -> re.Match[str]:
    words = [program, 'serve', nodes, str(PORT), '--connections', '1', *options]
    with subprocess.Popen(words, stdout=subprocess.PIPE) as server:
        assert server.stdout
        server.stdout.readline()
        return asked(load, PORT, server, row)

def of_echo(load: str, row: Row, found: re.Match[str]) -> int:
    return int(told([load, 'echo', str(row[1]), str(row[2]), found.group(1), found.group(2)]).group(3))

def tell_times(program: str, rounds: int) -> None:
    with tempfile.TemporaryDirectory() as folder:
        load = os.path.join(folder, 'load')
        subprocess.run(['gcc', '-O2', '-o', load, f'{PLAIN_C}/load.c'], check=True, stderr=subprocess.DEVNULL)
        nodes = {'read': os.path.join(folder, 'table.txt'), 'array': os.path.join(folder, 'array.txt')}
        with open(nodes['read'], 'w', encoding='ascii') as file:
            file.writelines('ns=1;s=Plant.Area1.Pump%06d.Flow\trw\tPump %d\tInt32\t%d\n' % (k, k, 1000 * k) for k in range(NODES))
        with open(nodes['array'], 'w', encoding='ascii') as file:
            file.write('ns=1;s=Plant.Area1.Pump000000.Flow\tr\tRow\tInt32[]\t%s\n' % ','.join(map(str, range(ELEMENTS))))
        for row in TIMED:
            print('%s of %d nodes, in groups of %d' % (row[0], row[3], row[2]))
            for _ in range(rounds):
                given = nodes.get(row[0], nodes['read'])
                found = of_program(load, program, given, row)
                ours, many, echo = int(found.group(3)), int(of_program(load, program, given, row, '--at-once', '16').group(3)), of_echo(load, row, found)
                print('  ua %d, with --at-once %d, echo %d a second; to the echo %.2f, %.2f' % (ours, many, echo, ours / echo, many / echo), flush=True)

def tell_idle(program: str) -> None:
    with node_file(PUMP) as nodes:
        server = Program(program, nodes, 'all', '--at-once', '1024')
        before = most_memory(server.process.pid)
        talks = [Talk() for _ in range(1000)]
        print('1000 idle connections with a session: %.1f KiB each' % ((most_memory(server.process.pid) - before) / len(talks)))
        server.process.kill()

# ---- allocations

def refuse_each(words: list[str], given: bytes) -> None:
    """Runs a program once for each of its allocations."""
    with tempfile.TemporaryDirectory() as folder:
        shim, told_at = f'{folder}/shim.so', f'{folder}/told'
        subprocess.run(['gcc', '-O2', '-fno-builtin', '-DALLOCATIONS', '-shared', '-fPIC', '-o', shim, f'{TOP}/tools/preload.c', '-ldl'], check=True)
        good = subprocess.run(words, input=given, capture_output=True, timeout=120)
        ends: dict[tuple[str, str, str], list[int]] = {}
        for number in range(1, 2001):
            env = {**os.environ, 'LD_PRELOAD': shim, 'FAIL_N': str(number), 'FAIL_TOLD': told_at}
            try:
                ran = subprocess.run(words, input=given, capture_output=True, timeout=120, env=env)
                out = 'same' if ran.stdout == good.stdout else 'a beginning' if good.stdout.startswith(ran.stdout) else 'OTHER'
                end = (str(ran.returncode), (ran.stderr.decode(errors='replace').strip().splitlines() or [''])[-1][:100], out)
            except subprocess.TimeoutExpired:
                end = ('does not end', '', '')
            if not os.path.exists(told_at):
                print(f'the run that met none: status {end[0]}, output {end[2]}')
                break
            os.remove(told_at)
            ends.setdefault(end, []).append(number)
        for (status, err, out), at in sorted(ends.items(), key=lambda it: it[1]):
            print(f"{len(at)} runs ({', '.join(map(str, at[:6]))}{', ..' * (len(at) > 6)}): status {status}, output {out}, {err!r}")
        print(f'{sum(map(len, ends.values()))} allocations refused in turn; with ample memory status {good.returncode}, {len(good.stdout)} octets of output')

def main(words: list[str]) -> None:
    word, rest = (words + [''])[0], words[1:]
    if word == 'count' and rest:
        with tempfile.TemporaryDirectory() as folder:
            write_files(folder, files())
            count_rows(os.path.abspath(rest[0]), folder, rest[1:])
            count_calls(folder, rest[1:])
    elif word == 'messages' and len(rest) == 2:
        write_files(rest[1], files(int(rest[0])))
    elif word == 'time' and rest:
        tell_times(rest[0], int((rest + ['3'])[1]))
        tell_idle(rest[0])
    elif word == 'allocations' and rest:
        given = b''
        if rest[0] == '--input':
            with open(rest[1], 'rb') as file:
                given, rest = file.read(), rest[2:]
        refuse_each(rest, given)
    else:
        raise SystemExit(__doc__)

if __name__ == '__main__':
    main(sys.argv[1:])
