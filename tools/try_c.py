#!/usr/bin/env python3
"""Builds and runs the examples of docs/C.md and docs/CPP.md: try_c [--library FILE [--unproved]] [--program FILE] [--hammer PIECES].

Each example, and each snippet of these pages, is compiled against crates/ua_c/include/ua.h and ua.hpp where its compiler
is at hand, and run where the library is: crates/ua_c/out/libua_c.a unless FILE is another; those in C++ under the sanitizers, too.
Over loopback connections the gateways in C and in C++ are asked by the clients in C++, Python and Rust, also beside a client that reads nothing and ones that are idle, and for what its sensor
measures; and where the built program `ua` is at hand, crates/ua_cli/out/ua_cli unless FILE is another, by that too, also for what
another client wrote, and the clients ask it. What they print is
compared with what docs/PROGRAM.md says. The examples in python/ua.py and docs/PYTHON.md are run, too. With --hammer so many pieces are thrown at the library, under the
sanitizers, and a hundredth of them under valgrind where that is at hand. One line is printed for each
thing that was tried; the status is 1 at the first difference.
"""
from __future__ import annotations

import os
import re
import shutil
import socket
import struct
import subprocess
import sys
import tempfile
import time
from typing import Any, Callable, NoReturn

sys.dont_write_bytecode = True
from kit import kit_folder, text_of
from sockets import HOME, READ, SENT, STREAMS, TOP, chunks, free_port

INCLUDE = os.path.join(TOP, 'crates/ua_c/include')
EXAMPLES = os.path.join(TOP, 'examples')
NODES = 'ns=1;s=Pump\trw\tPump\tInt32\t5\nns=1;s=Row\trw\tRow\tInt32[]\t10,20,30\n'
LIVE = NODES + 'ns=1;s=Sensor\tr\tSensor\tDouble\t0x0000000000000000\nns=1;s=Setpoint\trw\tSetpoint\tDouble\t0x0000000000000000\n'
ASKED = ['ns=1;s=Pump', 'ns=1;s=Row', 'i=9']
LINES = 'ns=1;s=Pump 00000000 Int32 5\nns=1;s=Row 00000000 Int32[] 10,20,30\ni=9 80340000\n'
HISTORY = 'ns=1;s=Pump - 00000000 5\nns=1;s=Row - 00000000 [10, 20, 30]\ni=9 - 80340000 -\n'
ENDPOINT = 'opc.tcp://localhost:%s 1 http://opcfoundation.org/UA/SecurityPolicy#None\n'
# What stands around the snippets of docs/C.md: what they are given, and what they use without showing it.
AROUND = '''#include <stdlib.h>
#include "ua.h"
extern const uint8_t *nodes, *node, *url, *uri, *name, *range, *piece, *reply;
extern size_t nodes_len, node_len, url_len, uri_len, name_len, count, reply_len;
extern struct ua_limits limits;
extern int64_t moment;
extern int connection;
void send_all(int to, const uint8_t *octets, size_t size);
void follow(size_t index, const uint8_t *octets, const struct ua_reading *item);
void snippet(void);
void snippet(void) {
%s}
'''
# The same of docs/CPP.md.
AROUND_CPP = '''#include "ua.hpp"
#include <string>
#include <vector>
extern std::string_view file, url;
extern ua::Octets piece;
extern int line;
void send_all(int to, ua::Octets octets);
void follow(const ua::Connection::Written &item);
void snippet() {
%s}
'''
# Of a client, by the port that it asks: the words that run it, and what it has to print.
Clients = dict[str, Callable[[str], tuple[list[str], str]]]
WARNED = ['-Wall', '-Wextra', '-Werror', '-I' + INCLUDE]
STRICT = ['cc', '-std=c11', '-D_POSIX_C_SOURCE=200809L', *WARNED]
STRICT_CPP = ['c++', '-std=c++17', '-Wpedantic', '-Wshadow', *WARNED]
SANITIZED = '-fsanitize=address,undefined'

def say(what: str) -> None:
    """Tells of one thing that was tried."""
    print('try_c: ' + what, flush=True)

def end(what: str) -> NoReturn:
    """Ends at a difference."""
    raise SystemExit('try_c: ' + what)

def run(words: list[str], **how: Any) -> str:
    """What a command prints, that has to end well."""
    done = subprocess.run(words, stdout=subprocess.PIPE, text=True, timeout=600, **how)
    if done.returncode != 0:
        end('%r ended with status %d' % (words, done.returncode))
    return done.stdout

def same(what: str, got: str, wanted: str) -> None:
    """Tells that this was printed as wanted, or ends."""
    if got != wanted:
        end('%s printed %r and not %r' % (what, got, wanted))
    say('%s: as wanted' % what)

class Serving:
    """A server in the background for so many connections, and some more that end as idle, that says when it listens."""

    def __init__(self, words_at: Callable[[str], list[str]], connections: int, idle: int = 0) -> None:
        self.port, self.connections, self.idle = str(free_port()), connections, idle
        words = words_at(self.port)
        self.process = subprocess.Popen(words, stdout=subprocess.PIPE, text=True)
        if not self.process.stdout or self.process.stdout.readline() != 'listening %s\n' % self.port:
            end('%r does not listen' % words)

    def end(self) -> list[str]:
        """Waits for its end, and hands back what it printed beside the ends of connections."""
        lines = ['Closed'] * self.connections + ['Idle'] * self.idle
        printed = self.process.communicate(timeout=60)[0].splitlines()
        got = [line.split() for line in printed if line.startswith('connection ')]
        if self.process.returncode != 0 or sorted(it[2] for it in got) != lines or len({it[1] for it in got}) != len(lines):
            end('the server printed %r' % got)
        return [line for line in printed if not line.startswith('connection ')]

def stall(port: str) -> socket.socket:
    """A line to a server that is asked on and on, until it takes no more, and whose answers are not read."""
    line = socket.socket()
    line.setsockopt(socket.SOL_SOCKET, socket.SO_RCVBUF, 4096)
    line.connect((HOME, int(port)))
    line.settimeout(0.5)
    item = 25  # the octets of the one item of the Read, which ends it behind the count of items
    body = READ[24:-item - 4] + struct.pack('<I', 100) + 100 * READ[-item:]
    try:
        line.sendall(b''.join(SENT[:4]))
        for number in range(4, 1000000):
            line.sendall(chunks(body, number)[0])
    except socket.timeout:
        return line
    end('a server took a million requests of a client that reads nothing')

class Examples:
    """The examples in a folder of their own, over a library, or compiled alone where there is none."""

    def __init__(self, folder: str, library: str) -> None:
        self.folder, self.library = folder, library
        self.gateways: dict[str, str] = {}
        self.answers: dict[str, str] = {}
        self.nodes, self.live = self.at('nodes.txt'), self.at('live.txt')
        for name, nodes in ((self.nodes, NODES), (self.live, LIVE)):
            with open(name, 'w', encoding='utf-8') as file:
                file.write(nodes)

    def at(self, name: str) -> str:
        return os.path.join(self.folder, name)

    def is_there(self, compiler: str, example: str) -> bool:
        """Whether a compiler is at hand."""
        if not shutil.which(compiler):
            say('no %s: %s is passed over' % (compiler, example))
        return bool(shutil.which(compiler))

    def archives(self) -> list[str]:
        """The library, and the kit's archive for memory."""
        return [self.library, os.path.join(kit_folder(), 'c/liblibc_c.a')]

    def build_c(self, name: str, *flags: str) -> str:
        """Compiles, and where the library is at hand links, a C example."""
        source = os.path.join(EXAMPLES, 'c', name + '.c')
        last = self.archives() if self.library else ['-c']
        run([*STRICT, '-O2', '-g', *flags, source, *last, '-o', self.at(name)])
        return self.at(name)

    def build_cpp(self, name: str, *flags: str) -> str:
        """The same of an example in C++; its file is named by its flags."""
        last = self.archives() if self.library else ['-c']
        made = self.at('%s.cpp%d' % (name, len(flags)))
        run([*STRICT_CPP, '-O1', '-g', *flags, os.path.join(EXAMPLES, 'cpp', name + '.cpp'), *last, '-o', made])
        return made

    def build_snippets(self, page: str, ending: str, around: str, words: list[str]) -> None:
        """Compiles each snippet of a page, with what it is given around it."""
        snippets = re.findall(r'^```%s\n(.*?)^```$' % ending, text_of(os.path.join(TOP, page)), re.MULTILINE | re.DOTALL)
        for snippet in snippets:
            source = self.at('snippet.' + ending)
            with open(source, 'w', encoding='utf-8') as file:
                file.write(around % snippet)
            run([*words, '-Wno-unused-but-set-variable', '-c', source, '-o', self.at('snippet.o')])
        if not snippets:
            end('%s has no snippet' % page)

    def build_shared(self) -> str:
        """The shared object, for Python."""
        archive, libc = self.archives()
        run(['cc', '-shared', '-o', self.at('libua.so'), '-Wl,--whole-archive', archive, '-Wl,--no-whole-archive', libc])
        return self.at('libua.so')

    def build_rust(self) -> str:
        """The example and the tests in Rust, linked where the library is at hand, and the tests run."""
        arguments = [word for it in self.archives() for word in ('-C', 'link-arg=' + it)] if self.library else ['--emit=metadata']
        words = ['rustc', '--edition', '2024', '-D', 'warnings', '-O', *arguments]
        run([*words, os.path.join(EXAMPLES, 'rust/endpoints.rs'), '-o', self.at('endpoints')])
        run([*words, '--test', os.path.join(TOP, 'rust/ua.rs'), '-o', self.at('ua_rs')])
        if self.library:
            same('the tests of ua.rs', run([self.at('ua_rs')]).strip().split(';')[0].split('\n')[-1], 'test result: ok. 2 passed')
        return self.at('endpoints')

    def build(self) -> Clients:
        """Builds each example whose compiler is at hand; those words ask a server at a port, by name."""
        clients: Clients = {}
        for name in ('examples/python/read.py', 'examples/python/historian.py', 'examples/python/pieces.py', 'python/ua.py'):
            compile(text_of(os.path.join(TOP, name)), name, 'exec')
        if self.is_there('cc', 'gateway.c and read.py'):
            self.build_snippets('docs/C.md', 'c', AROUND, STRICT)
            self.gateways['gateway.c'] = self.build_c('gateway')
            self.build_c('hammer')
            self.build_c('faults', SANITIZED)
            self.build_c('steps')
            self.build_c('stack', '-pthread')
            self.build_c('threads', '-pthread')
            self.answers['c'] = self.build_c('answers')
        if self.is_there('c++', 'what is in C++'):
            clients.update(self.build_all_cpp())
        if self.gateways and self.library:
            shared = self.build_shared()
            self.python(shared)
            clients['read.py'] = lambda port: ([sys.executable, os.path.join(EXAMPLES, 'python/read.py'), shared, port, *ASKED], LINES)
            history = [sys.executable, os.path.join(EXAMPLES, 'python/historian.py'), shared]
            clients['historian.py'] = lambda port: ([*history, port, '2', '0', *ASKED], HISTORY)
        if self.is_there('rustc', 'endpoints.rs'):
            asked = self.build_rust()
            clients['endpoints.rs'] = lambda port: ([asked, port], ENDPOINT % port)
        say('the examples compile')
        return clients

    def build_all_cpp(self) -> Clients:
        """The headers, the snippets of docs/CPP.md and the examples in C++, of which one is a client."""
        run(['c++', *WARNED, '-fsyntax-only', '-x', 'c++', os.path.join(INCLUDE, 'ua.h')])
        self.build_snippets('docs/CPP.md', 'cpp', AROUND_CPP, STRICT_CPP)
        self.gateways['gateway.cpp'] = self.build_cpp('gateway')
        self.gateways['gateway.cpp under the sanitizers'] = self.build_cpp('gateway', SANITIZED)
        self.answers['cpp'] = self.build_cpp('answers', SANITIZED)
        read = self.build_cpp('read', SANITIZED)
        return {'read.cpp': lambda port: ([read, port, *ASKED], LINES)}

    def python(self, shared: str) -> None:
        """The examples in python/ua.py, and the snippet of docs/PYTHON.md."""
        snippet, = re.findall(r'^```python\n(.*?)^```$', text_of(os.path.join(TOP, 'docs/PYTHON.md')), re.MULTILINE | re.DOTALL)
        words = {**os.environ, 'UA_LIBRARY': shared, 'PYTHONPATH': os.path.join(TOP, 'python'), 'PYTHONDONTWRITEBYTECODE': '1'}
        same('ua.py', run([sys.executable, '-m', 'doctest', os.path.join(TOP, 'python/ua.py')], env=words), '')
        same('pieces.py', run([sys.executable, os.path.join(EXAMPLES, 'python/pieces.py'), shared], env=words), 'True None\n')
        same('docs/PYTHON.md', run([sys.executable, '-c', snippet], env=words), "21.5 b''\n")

    def ask(self, clients: Clients, server: str, serve_at: Callable[[str], list[str]]) -> None:
        """Each client asks a server of this name, one behind the other."""
        serving = Serving(serve_at, len(clients))
        for name, client in clients.items():
            words, wanted = client(serving.port)
            same('%s asks %s' % (name, server), run(words), wanted)
        serving.end()

    def ask_beside(self, clients: Clients, gateway: str) -> None:
        """Neither a client that reads nothing nor as many idle ones as there are places hold the others up for long."""
        serving = Serving(lambda port: [self.gateways[gateway], self.nodes, port, str(2 * len(clients) + 17), '5'], 2 * len(clients), 17)
        lines = [stall(serving.port)]
        for beside in ('a client that reads nothing', '16 idle ones'):
            for name, client in clients.items():
                words, wanted = client(serving.port)
                same('%s asks %s beside %s' % (name, gateway, beside), run(words), wanted)
            if len(lines) == 1:
                lines += [socket.create_connection((HOME, int(serving.port))) for _ in range(16)]
        serving.end()

    def ask_at_once(self, program: str, gateway: str) -> None:
        """The program writes to and reads from a gateway, over two connections at once too; what one wrote the next one reads."""
        serving = Serving(lambda port: [self.gateways[gateway], self.nodes, port, '4'], 4)
        same('ua write asks ' + gateway, run([program, 'write', serving.port, 'ns=1;s=Pump', 'Int32', '6']), 'ns=1;s=Pump 00000000\n')
        words = [program, 'read', serving.port] + ['ns=1;s=Row'] * 200
        both = [subprocess.Popen(words, stdout=subprocess.PIPE, text=True) for _ in range(2)]
        for client in both:
            same('one of two ua read asks ' + gateway, client.communicate(timeout=60)[0], 'ns=1;s=Row 00000000 Int32[] 10,20,30\n' * 200)
        same('ua read behind ua write', run([program, 'read', serving.port, 'ns=1;s=Pump']), 'ns=1;s=Pump 00000000 Int32 6\n')
        serving.end()

    def ask_live(self, clients: Clients, program: str, gateway: str) -> None:
        """What a gateway's sensor measures is read, and what a client writes to its setpoint is told."""
        if 'read.py' not in clients:
            return
        connections = 4 if program else 3
        serving = Serving(lambda port: [self.gateways[gateway], self.live, port, str(connections)], connections)
        words = clients['read.py'](serving.port)[0][:4] + ['ns=1;s=Sensor']
        first = run(words)
        time.sleep(0.5)
        if run(words) == first or not first.startswith('ns=1;s=Sensor 00000000 Double 0x'):
            end('the sensor stands still at %r' % first)
        history = [*clients['historian.py'](serving.port)[0][:4], '3', '0.3', 'ns=1;s=Sensor', 'ns=1;s=Setpoint']
        lines = [line.split() for line in run(history).splitlines()]
        times = [int(line[1]) for line in lines if line[0] == 'ns=1;s=Sensor']
        if len(times) != 3 or times != sorted(set(times)) or len(lines) != 4 or lines[1] != ['ns=1;s=Setpoint', '-', '00000000', '0.0']:
            end('historian.py printed %r' % lines)
        if program:
            run([program, 'write', serving.port, 'ns=1;s=Setpoint', 'Double', '0x4035400000000000'])
        told = serving.end()
        if told != ['setpoint 21.25'] * bool(program):
            end('the gateway told %r' % told)
        say('the sensor and the setpoint of %s: as wanted' % gateway)

    def answer(self, language: str) -> None:
        """Every call in ample memory: answers.txt beside the example has what it answers."""
        wanted = text_of(os.path.join(EXAMPLES, language, 'answers.txt'))
        sides = [os.path.join(STREAMS, name) for name in ('client.bin', 'server.bin')]
        same('answers.' + language, run([self.answers[language], *sides]), wanted)

    def threads(self) -> None:
        """Handles of several threads."""
        same('threads.c', run([self.at('threads')]), 'as wanted\n')
        if self.is_there('valgrind', 'threads.c under helgrind'):
            words = ['valgrind', '--tool=helgrind', '--error-exitcode=9', '-q', self.at('threads')]
            same('threads.c under helgrind', run(words), 'as wanted\n')

    def stack(self) -> None:
        """No call takes more of a painted stack than include/ua.h says was measured."""
        most, = re.findall(r'#define UA_STACK_MEASURED (\d+)', text_of(os.path.join(INCLUDE, 'ua.h')))
        if '--unproved' in sys.argv:
            return say('stack.c is passed over: what a proved library takes was measured')
        print(run([self.at('stack'), os.path.join(STREAMS, 'client.bin'), most]), end='')
        say('the stack of the calls: below %s octets' % most)

    def hammer(self, pieces: int) -> None:
        """Pieces that are random, or parts of whole conversations that are changed."""
        streams = sorted(os.path.join(STREAMS, name) for name in os.listdir(STREAMS))
        print(run([self.build_c('hammer', SANITIZED), str(pieces), '500', '1', *streams]), end='')
        if self.is_there('valgrind', 'hammer.c under memcheck'):
            words = ['valgrind', '--error-exitcode=9', '--leak-check=full', '-q', self.build_c('hammer')]
            print(run([*words, str(pieces // 100), '500', '2', *streams]), end='')

def word_behind(flag: str, usual: str) -> str:
    """The word behind a flag; without the flag the usual file, or nothing where there is none."""
    if flag in sys.argv:
        return sys.argv[sys.argv.index(flag) + 1]
    return usual if os.path.exists(usual) else ''

def main() -> None:
    library = word_behind('--library', os.path.join(TOP, 'crates/ua_c/out/libua_c.a'))
    program = word_behind('--program', os.path.join(TOP, 'crates/ua_cli/out/ua_cli'))
    with tempfile.TemporaryDirectory() as folder:
        examples = Examples(folder, library)
        clients = examples.build()
        if not library:
            say('no crates/ua_c/out/libua_c.a: no example is run (rt lib in crates/ua_c makes it)')
            return
        for language in examples.answers:
            examples.answer(language)
        if 'c' in examples.answers:
            same('faults.c under the sanitizers', run([examples.at('faults')]), 'as wanted\n')
            examples.threads()
            examples.stack()
        for gateway, built in examples.gateways.items():
            examples.ask(clients, gateway, lambda port, built=built: [built, examples.nodes, port, str(len(clients))])
            examples.ask_beside(clients, gateway)
            examples.ask_live(clients, program, gateway)
            if program:
                examples.ask_at_once(program, gateway)
        if program and clients:
            examples.ask(clients, 'ua serve', lambda port: [program, 'serve', examples.nodes, port, '--connections', str(len(clients))])
        if not program:
            say('no crates/ua_cli/out/ua_cli: the program takes no part (rt run in crates/ua_cli makes it)')
        if '--hammer' in sys.argv:
            examples.hammer(int(word_behind('--hammer', '')))

if __name__ == '__main__':
    main()
