#!/usr/bin/env python3
"""Compares crates/ua_c/include/ua.h with the exports of crates/ua_c: check_c_header [--write].

Each declaration has the name, the result and the parameters of an export, by type and name in order, and
each export is declared; the structures of limits and of a reading have the fields of the crate's, in order; each status and
each event has one number in the header and in src/, and each definition of specs/Status.antt has that of
the header; each kind of response of ua_services has its number in the header; include/ua.hpp names each number by its own
name, and makes each call, but those of the server of one connection, and rust/ua.rs declares these calls and has the statuses; python/ua.py has their parameters; the version of the header is
that of specs/Words.antt and of the program; the records of specs/ that say what a call of the library says have a field
for each of its clauses, in order; include/ua_null.h is what follows from the declarations, and with --write
it is written. The status is 1 at the first difference, which is printed.
"""
from __future__ import annotations

import os
import re
import sys
import textwrap
from typing import NoReturn

sys.dont_write_bytecode = True
from kit import TOP, text_of

# What is declared, by name: the type of the result, and the type and name of each parameter.
Calls = dict[str, tuple[str, list[tuple[str, str]]]]
CRATE = os.path.join(TOP, 'crates', 'ua_c')
# The types in C of a parameter, and what stands behind its name in each of theirs.
PARAMETERS: dict[str, list[str]] = {
    'Global': [], '&mut UaHandle': ['struct ua_handle *'], '&mut UaNodes': ['struct ua_nodes *'], '&mut UaConnection': ['struct ua_connection *'],
    '&UaLimits': ['const struct ua_limits *'], '&UaReading': ['const struct ua_reading *'], '&mut UaReading': ['struct ua_reading *'],
    '&mut [UaReading]': ['struct ua_reading *', 'size_t'], '&[u8]': ['const uint8_t *', 'size_t'], '&mut [u8]': ['uint8_t *', 'size_t'],
    '&mut usize': ['size_t *'], '&mut u32': ['uint32_t *'], 'u32': ['uint32_t'], 'i64': ['int64_t'], 'usize': ['size_t'],
}
# The structures that cross: of each its name in C, and the file that has it.
STRUCTURES = {'UaLimits': ('ua_limits', 'limits.rt'), 'UaReading': ('ua_reading', 'readings.rt')}
# The types in C of their fields.
FIELDS = {'u8': 'uint8_t', 'u16': 'uint16_t', 'u32': 'uint32_t', 'i64': 'int64_t', 'usize': 'size_t'}
# In the crate a handle is `h`, `handle` is the RequestHandle, which the header calls the request's, and a
# type is a `kind`, since `type` is a word of the language.
OTHER_NAMES = {'h': 'handle', 'handle': 'request', 'kind': 'type'}
RESULTS = {'': 'void', 'u32': 'uint32_t', 'usize': 'size_t'}

def text(*names: str) -> str:
    """A file of the crate."""
    return text_of(os.path.join(CRATE, *names))

def end(difference: str) -> NoReturn:
    """Tells the first difference, and ends."""
    print('check_c_header: ' + difference)
    sys.exit(1)

def first(pattern: str, text_of: str, flags: int = 0) -> str:
    """What stands in the brackets of a pattern, where a text has it first.

    >>> first(r'version = (\\d+)', 'a\\nversion = 513\\n')
    '513'
    """
    found = re.search(pattern, text_of, flags)
    if not found:
        end('nothing is as %s' % pattern)
    return found[1]

def exports() -> Calls:
    """What C has to declare."""
    found: Calls = {}
    for name in sorted(os.listdir(os.path.join(CRATE, 'src'))):
        pattern = r'#\[unsafe\(no_mangle\)\]\s+pub extern "C" fn (\w+)\(([^)]*)\)(?:\s*->\s*(\w+))?'
        for export, parameters, result in re.findall(pattern, text('src', name)):
            given = [p.split(':', 1) for p in parameters.split(',') if p.strip()]
            found[export] = (RESULTS[result], [it for name, kind in given for it in in_c(name.strip(), kind.strip())])
    return found

def in_c(name: str, kind: str) -> list[tuple[str, str]]:
    """The parameters in C of one of the crate's.

    >>> in_c('kind', '&[u8]'), in_c('h', '&mut UaHandle')
    ([('const uint8_t *', 'type'), ('size_t', 'type_len')], [('struct ua_handle *', 'handle')])
    """
    name = OTHER_NAMES.get(name, name)
    return [(c, name + '_len' * (at == 1)) for at, c in enumerate(PARAMETERS[kind])]

def declarations(header: str) -> Calls:
    """What the header declares.

    >>> declarations('uint32_t ua_node_get(struct ua_nodes *nodes, size_t index);\\n')
    {'ua_node_get': ('uint32_t', [('struct ua_nodes *', 'nodes'), ('size_t', 'index')])}
    """
    found: Calls = {}
    for result, name, parameters in re.findall(r'^(\w+) (ua_\w+)\(([^)]*)\);', header, re.MULTILINE):
        types = []
        for parameter in parameters.split(',') if parameters != 'void' else ():
            parts = re.fullmatch(r'\s*(.*?)\s*(\*?)(\w+)\s*', parameter, re.DOTALL)
            if not parts:
                end('%s has a parameter %s' % (name, parameter))
            kind, star, given = parts.groups()
            types.append((' '.join(kind.split()) + (' *' if star else ''), given))
        found[name] = (result, types)
    return found

NULL = """/* Null pointers, in C and C++ with GCC or Clang: ua.h includes this, which
 * tools/check_c_header.py --write writes from its declarations. Where a pointer with a length is null, the call takes it
 * as empty if the length is 0, and else answers UA_BAD_ARGUMENT; ua_free(NULL) does nothing.
 * Each of these functions stands in front of the library's function of its name, which is `_given` here. */
#if defined(__GNUC__)
"""
# What stands behind the functions of include/ua_null.h.
NULL_END = """
#endif
"""

def null_header(found: Calls) -> str:
    """What include/ua_null.h has to be: what is done in front of each call with octets or with a buffer."""
    out = NULL
    for name, (result, parameters) in found.items():
        counted = [given.removesuffix('_len') for _, given in parameters if given.endswith('_len')]
        frees = name == 'ua_free'
        if not counted and not frees:
            continue
        declared = [kind + ' ' * (kind[-1] != '*') + given for kind, given in parameters]
        out += '\n' + wrapped('%s %s_given(' % (result, name), declared, ') __asm__("%s");' % name, '')
        out += wrapped('static inline %s %s(' % (result, name), declared, ') __asm__("%s_in_front");' % name, '')
        out += wrapped('static inline %s %s(' % (result, name), declared, ') {', '') + in_front(parameters, counted, frees)
        handed = ['%s ? %s : (%s)(void *)&%s_len' % (it, it, kind, it) if it in counted else it for kind, it in parameters]
        out += wrapped('%s%s_given(' % ('' if frees else 'return ', name), handed, ');', '    ') + '}\n'
    return out + NULL_END

def in_front(parameters: list[tuple[str, str]], counted: list[str], frees: bool) -> str:
    """What a call does before it makes the library's, as lines.

    >>> print(in_front([('uint8_t *', 'buffer'), ('size_t', 'buffer_len'), ('size_t *', 'needed')], ['buffer'], False), end='')
        if (!buffer && buffer_len) {
            *needed = 0;
            return UA_BAD_ARGUMENT;
        }
    >>> print(in_front([('struct ua_handle *', 'handle')], [], True), end='')
        if (!handle)
            return;
    """
    lines = ['    if (!%s)\n        return;\n' % it for _, it in parameters if frees]
    if counted:
        tests = ['(!%s && %s_len)' % (it, it) for it in counted]
        lines.append('    if (%s) {\n' % (tests[0][1:-1] if len(tests) == 1 else ' ||\n        '.join(tests)))
        for kind, it in parameters:
            if kind in ('size_t *', 'uint32_t *'):
                lines.append('        *%s = 0;\n' % it)
            if kind == 'struct ua_reading *' and it not in counted:
                lines.append('        memset(%s, 0, sizeof *%s);\n' % (it, it))
        lines.append('        return UA_BAD_ARGUMENT;\n    }\n')
    return ''.join(lines)

def wrapped(head: str, parameters: list[str], rest: str, indent: str) -> str:
    """A head, parameters and what stands behind them, on as many lines as they take.

    >>> wrapped('return ua_get(', ['a', 'b'], ');', '    ')
    '    return ua_get(a, b);\\n'
    """
    line = (head + ', '.join(parameters) + rest).replace(' ', '\0').replace(',\0', ', ').replace('\0__asm__', ' __asm__')
    lines = textwrap.wrap(line, 100, initial_indent=indent, subsequent_indent=indent + '    ', break_long_words=False)
    return ''.join(it.replace('\0', ' ') + '\n' for it in lines)

def check_null(found: Calls) -> None:
    """The header for null pointers, which is written first with --write."""
    path = os.path.join(CRATE, 'include', 'ua_null.h')
    if '--write' in sys.argv:
        with open(path, 'w', encoding='utf-8') as file:
            file.write(null_header(found))
    if text('include', 'ua_null.h') != null_header(found):
        end('include/ua_null.h is not what follows from ua.h: check_c_header --write')

# Enumerations of include/ua.hpp: of each what stands in front of its names in the header, and `_RESPONSE` and the like by name.
ENUMERATIONS = {'Status': '', 'BadLine': 'LINE_', 'BadText': 'TEXT_', 'Event': 'EVENT_', 'Response': ''}
# The calls of a server of one connection, which go with the next version.
OLDER = {'ua_server_new', 'ua_server_step', 'ua_server_next_connection'}

def check_cpp(found: Calls, header: str) -> None:
    """The header for C++ has each number and each call, but the older ones."""
    cpp = re.sub(r'/\*.*?\*/', '', text('include', 'ua.hpp'), flags=re.DOTALL)
    named = []
    for kind, front in ENUMERATIONS.items():
        for name, number in re.findall(r'(\w+) = (UA_\w+)', first(r'enum class %s : std::uint32_t \{(.*?)\};' % kind, cpp, re.DOTALL)):
            named.append(number)
            if number != 'UA_' + front + name.upper():
                end('%s::%s of ua.hpp is %s' % (kind, name, number))
    wanted = re.findall(r'^\s+(UA_\w+) = \d+,?', header, re.MULTILINE)
    if sorted(named) != sorted(wanted):
        end('numbers of ua.hpp differ: %s' % sorted(set(named) ^ set(wanted)))
    calls = set(re.findall(r'\b(ua_\w+)\(', cpp))
    if set(found) - OLDER - calls or calls & OLDER:
        end('ua.hpp lacks %s' % sorted(set(found) - OLDER - calls or calls & OLDER))

# The types in Rust of the header's.
RUST = {'size_t': 'usize', 'uint32_t': 'u32', 'int64_t': 'i64', 'uint8_t': 'u8', 'ua_handle': 'Handle', 'ua_nodes': 'Handle',
        'ua_connection': 'Handle', 'ua_limits': 'Limits', 'ua_reading': 'CReading'}

def in_rust(kind: str) -> str:
    """The type in Rust of a parameter.

    >>> in_rust('const uint8_t *'), in_rust('struct ua_nodes *'), in_rust('size_t')
    ('*const u8', '*mut Handle', 'usize')
    """
    pointer = '*const ' if kind.startswith('const ') else '*mut ' if kind.endswith('*') else ''
    return pointer + RUST[kind.removeprefix('const ').removeprefix('struct ').removesuffix(' *')]

def check_rust(found: Calls, header: str) -> None:
    """The module in Rust declares each call but the older ones, and has the statuses and the fields of readings."""
    rust = text('..', '..', 'rust', 'ua.rs')
    wanted = []
    for name, (result, parameters) in found.items():
        given = ', '.join('%s: %s' % (re.sub(r'^type', 'kind', it), in_rust(kind)) for kind, it in parameters)
        wanted.append('fn %s(%s)%s;' % (name, given, '' if result == 'void' else ' -> ' + RUST[result]))
    declared = re.findall(r'^    (fn ua_.*;)$', rust, re.MULTILINE)
    wanted = [it for it in wanted if it[3:].split('(')[0] not in OLDER]
    if declared != wanted:
        end('rust/ua.rs differs: %s' % sorted(set(declared) ^ set(wanted)))
    statuses = dict(re.findall(r'^\s+UA_(\w+) = (\d+),?', first(r'UA_OK = 0(.*?)\};', header.replace('UA_OK', '\nUA_OK'), re.DOTALL), re.MULTILINE))
    if dict(re.findall(r'pub const (\w+): Status = Status\((\d+)\);', rust)) != {'OK': '0', **statuses}:
        end('rust/ua.rs has other statuses')
    for c, ours in (('ua_limits', 'Limits'), ('ua_reading', 'CReading')):
        theirs = re.findall(r'(\w+) (\w+);', first(r'struct %s \{(.*?)\}' % c, header, re.DOTALL))
        fields = re.findall(r'^    (?:pub )?(\w+): (\w+),$', first(r'\bstruct %s \{(.*?)\n\}' % ours, rust, re.DOTALL), re.MULTILINE)
        if [(FIELDS[kind], name) for name, kind in fields] != theirs:
            end('%s of rust/ua.rs has other fields' % ours)

def check_python(found: Calls) -> None:
    """The module in Python has the parameters of each call that it names."""
    named = re.findall(r'"(ua_\w+)": "(\w*)"', first(r'^CALLS = \{(.*?)^\}', text('..', '..', 'python', 'ua.py'), re.DOTALL | re.MULTILINE))
    letters = {'uint32_t': 'u', 'int64_t': 'i', 'size_t': 's'}
    for name, parameters in named:
        counted = {given[:-4] for _, given in found[name][1] if given.endswith('_len')}
        wanted = ['o' if it in counted else letters.get(kind, 'p') for kind, it in found[name][1] if not it.endswith('_len')]
        if parameters != ''.join(wanted):
            end('%s of python/ua.py has %s' % (name, parameters))

def check_structures(header: str) -> None:
    """The structures that cross have the fields of the crate's."""
    for name, (c, file) in STRUCTURES.items():
        theirs = re.findall(r'(\w+) (\w+);', first(r'struct %s \{(.*?)\}' % c, header, re.DOTALL))
        ours = re.findall(r'pub (\w+): (\w+),', first(r'pub struct %s \{(.*?)\n\}' % name, text('src', file), re.DOTALL))
        if theirs != [(FIELDS[kind], field) for field, kind in ours] or not ours:
            end('struct %s has %s and %s has %s' % (c, theirs, name, ours))

def check_numbers(header: str) -> None:
    """Statuses, events and kinds of responses have one number each."""
    ours = dict(re.findall(r'^\s+UA_(\w+) = (\d+),?', header, re.MULTILINE))
    kinds = re.findall(r'^ +\w+\((\w+)\) = (\d+),$', text('..', 'ua_services', 'src', 'response.rt'), re.MULTILINE)
    for name, number in kinds:
        name = re.sub(r'(?<=[a-z])(?=[A-Z])', '_', name).upper()
        if ours.pop(name, None) != number:
            end('UA_%s is not %s, as in ua_services' % (name, number))
    consts = dict(re.findall(r'const (\w+): u32 = (\d+);', ''.join(text('src', name) for name in ('status.rt', 'told.rt', 'shared.rt'))))
    specs = {n.upper(): v for n, v in re.findall(r'^(\w+) = (\d+)$', text('specs', 'Status.antt'), re.MULTILINE)}
    ours.pop('BAD_ARGUMENT')  # which the headers tell alone
    if ours != consts:
        end('numbers differ: %s' % sorted(set(ours.items()) ^ set(consts.items())))
    for name, number in specs.items():
        if ours.get(name) != number:
            end('UA_%s is not %s, as in specs/Status.antt' % (name, number))

# The records that have the clauses of calls of the library, as fields: of each the file and the head of the call.
RECORDS = {
    ('Connecting', 'IsNewConnection'): ('ua_server/src/connection.rt', 'pub fn new('),
    ('Connecting', 'StepsConnectionAs'): ('ua_server/src/connection.rt', 'pub fn step_telling('),
    ('Serving', 'IsFreshServer'): ('ua_server/src/server.rt', 'pub fn new('), ('Serving', 'StepsAs'): ('ua_server/src/server.rt', 'pub fn step('),
    ('Asking', 'IsNewClient'): ('ua_channel/src/client/channel.rt', 'pub fn new('),
    ('Asking', 'TakesAs'): ('ua_channel/src/client/channel.rt', 'pub fn take('),
    ('Asking', 'AsksAs'): ('ua_channel/src/client/channel.rt', 'pub fn ask('),
    ('Asking', 'RenewsAs'): ('ua_channel/src/client/channel.rt', 'pub fn renew('),
    ('Asking', 'ClosesAs'): ('ua_channel/src/client/channel.rt', 'pub fn close('),
}

def check_clauses() -> None:
    """The records have a field for each clause."""
    for (file, record), (path, head) in RECORDS.items():
        contract = text('..', *path.split('/')).split(head, 1)[1].split('\n    {\n', 1)[0]
        clauses = re.findall(r'^ +ensures\*? (?:(\w+) )?\{', contract, re.MULTILINE)
        body = text('specs', file + '.antt').split('record %s ' % record, 1)[1].split('\n\n', 1)[0]
        fields = [name.removesuffix('_is') for name in re.findall(r'^  pub (\w+) :', body, re.MULTILINE)]
        if fields != clauses or not clauses:
            end('%s has %s, and the call %s of %s says %s' % (record, fields, head, path, clauses))

def check_version(header: str) -> None:
    """The version is that of specs/ and of the program."""
    named = dict(re.findall(r'^#define UA_VERSION_(\w+) (\d+)$', header, re.MULTILINE))
    parts = [int(named[name]) for name in ('MAJOR', 'MINOR', 'PATCH')]
    word = first(r'^version = (\d+)$', text('specs', 'Words.antt'), re.MULTILINE)
    printed = '"ua %d.%d.%d ' % tuple(parts)
    if int(word) != parts[0] * 65536 + parts[1] * 256 + parts[2]:
        end('UA_VERSION is not %s, as in specs/Words.antt' % word)
    if printed not in text('..', 'ua_program', 'src', 'version.rt'):
        end('ua_program does not print %s' % printed)

def main() -> None:
    """All of it; what differs ends it."""
    header = text('include', 'ua.h')
    plain = re.sub(r'/\*.*?\*/', '', header, flags=re.DOTALL)
    wanted, found = exports(), declarations(plain)
    for name in sorted(set(wanted) | set(found)):
        if wanted.get(name) != found.get(name):
            end('%s is exported as %s and declared as %s' % (name, wanted.get(name), found.get(name)))
    check_null(found)
    check_cpp(found, plain)
    check_rust(found, plain)
    check_python(found)
    check_structures(plain)
    check_numbers(plain)
    check_version(plain)
    check_clauses()

if __name__ == '__main__':
    main()
