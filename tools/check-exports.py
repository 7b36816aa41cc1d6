#!/usr/bin/env python3
"""The functions that crate host_c exports for C are those of crate host, one for one: the same names, arguments, answers and clauses, word for word, each
with a call of host's function as its body, and they are the functions that the header declares. (Crate uses stands above host and shows that the clauses
are held; nothing stands above a static library.)"""
import os
import re
import sys

os.chdir(os.path.join(os.path.dirname(os.path.abspath(__file__)), '..'))
FUNCTION = r'^{}fn (locker_aes\w*)\(([^)]*)\) -> (\w+)\n((?:    (?:requires|ensures)\b[^\n]*\n)+)\{{\n(.*?)^\}}'


def functions(path, before):
    found = {}
    for name, params, answer, clauses, body in re.findall(FUNCTION.format(before), open(path, encoding='utf-8').read(), re.M | re.S):
        found[name] = (' '.join(params.split()).rstrip(','), answer, clauses, ' '.join(body.split()))
    return found


def imports(path):
    """Each name that the clauses of a file import, with its module: with `as`, a clause of the same words could mean another thing."""
    names = set()
    for module, listed in re.findall(r'^ghost use ([\w.]+)\.\{([^}]*)\};', open(path, encoding='utf-8').read(), re.M):
        names |= {(module, name.strip()) for name in listed.split(',') if name.strip()}
    return names


def main():
    host = functions('crates/host/src/lib.rt', r'pub ')
    exports = functions('crates/host_c/src/lib.rt', r'#\[unsafe\(no_mangle\)\]\npub extern "C" ')
    header = set(re.findall(r'^uint32_t (locker_aes\w*)\(', open('include/locker_aes.h', encoding='utf-8').read(), re.M))
    faults = []
    if not header or set(host) != header or set(exports) != header:
        faults.append(f'header {sorted(header)}, host {sorted(host)}, host_c {sorted(exports)}')
    for name in sorted(set(host) & set(exports)):
        if host[name][:3] != exports[name][:3]:
            faults.append(f'{name}: its arguments, answer or clauses in host_c are not those in host')
        params = ', '.join(re.findall(r'(\w+): ', exports[name][0]))
        if exports[name][3] != f'host::{name}({params})':
            faults.append(f'{name}: in host_c it is not a call of host::{name} with its arguments')
    for module, name in sorted(imports('crates/host_c/src/lib.rt') - imports('crates/host/src/lib.rt')):
        faults.append(f'host_c takes {name} of {module}, and host does not')
    exported = len(re.findall(r'no_mangle', open('crates/host_c/src/lib.rt', encoding='utf-8').read()))
    if exported != len(exports):
        faults.append(f'host_c exports {exported} functions, of which {len(exports)} are read here')
    for fault in faults:
        print(f'check-exports: {fault}', file=sys.stderr)
    if not faults:
        print(f'ok {len(exports)} exports are those of crate host and of the header')
    sys.exit(1 if faults else 0)


if __name__ == '__main__':
    main()
