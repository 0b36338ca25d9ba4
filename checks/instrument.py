#!/usr/bin/env python3
"""Builds `sonata` with counters at its branches, as AFL++ reads them, for checks/fuzz.py.

    python3 checks/instrument.py PROGRAM
    python3 checks/instrument.py PROGRAM --module MODULE

It stands on the libraries that the gate left in this clone, or on those in the folder of `--libraries`. The toolchain is used as it is, but for its
clang, in whose place stands a script that asks for the counters. With `--module` nothing is built anew but that file, the whole program in the form that
LLVM keeps (`module.bc` in the folder that `rt try` makes while it runs). Needs a C compiler and AFL++ (Debian's package afl++)."""

import argparse
import os
import subprocess
import sys
import tempfile

TOP = os.path.join(os.path.dirname(os.path.abspath(__file__)), '..')
RUNTIME = '/usr/lib/afl/afl-compiler-rt-64.o'
COUNTERS = '-fsanitize-coverage=trace-pc-guard'


def kit_folder():
    """The toolchain's folder, where its first page lies."""
    first = subprocess.run(['rt', 'doc'], capture_output=True, text=True, check=True).stdout.split('\n')[0]
    return os.path.dirname(first)


def with_counters(kit, folder):
    """A toolchain of links into the kit's, with a clang that asks for counters."""
    from_, to = os.path.join(kit, 'toolchain'), os.path.join(folder, 'toolchain')
    os.makedirs(os.path.join(to, 'bin'))
    for name in os.listdir(from_):
        if name != 'bin':
            os.symlink(os.path.join(from_, name), os.path.join(to, name))
    for name in os.listdir(os.path.join(from_, 'bin')):
        if name != 'clang':
            os.symlink(os.path.join(from_, 'bin', name), os.path.join(to, 'bin', name))
    clang = os.path.join(to, 'bin', 'clang')
    with open(clang, 'w', encoding='utf-8') as file:
        file.write('#!/bin/sh\nexec %s "$@" %s\n' % (os.path.join(from_, 'bin', 'clang'), COUNTERS))
    os.chmod(clang, 0o755)
    return to


def below(name):
    """The crates that a crate names in crates.txt."""
    with open(os.path.join(TOP, 'crates.txt'), encoding='utf-8') as file:
        listed = dict(line.split('#')[0].split(':', 1) for line in file if ':' in line.split('#')[0])
    return listed, listed[name].split()


def library(kit, listed, name, libraries):
    if name not in listed:
        return os.path.join(kit, 'rlibs', name + '.rlib')
    if libraries:
        return os.path.join(libraries, name + '.rlib')
    return os.path.join(TOP, 'crates', name, 'out', 'rlib', name + '.rlib')


def build(kit, toolchain, libraries, made):
    """The program as an object."""
    listed, direct = below('sonata')
    words = [os.path.join(kit, 'bin', 'rattle'), 'build', '--crate-name', 'sonata', 'src/main.rt']
    for name in direct:
        words += ['--extern', '%s=%s' % (name, library(kit, listed, name, libraries))]
    for name in listed:
        words += ['-L', 'dependency=' + os.path.dirname(library(kit, listed, name, libraries))] if not libraries else []
    words += ['-L', 'dependency=' + libraries] if libraries else []
    words += ['--extern', 'std=' + os.path.join(kit, 'rlibs', 'std.rlib'), '-L', 'dependency=' + os.path.join(kit, 'rlibs'),
              '--antt-project', os.path.join(kit, 'rattle', 'logic', 'antt-project.json'), '--logic-built', os.path.join(kit, 'logic_built'),
              '--toolchain', toolchain, '--backend', 'llvm', '-o', made]
    subprocess.run(words, cwd=os.path.join(TOP, 'crates', 'sonata'), check=True, stdout=subprocess.DEVNULL)


def compile_module(kit, module, made):
    """The program as an object, from a module of the whole of it."""
    subprocess.run([os.path.join(kit, 'toolchain', 'bin', 'clang'), '-O2', '-fPIE', '-c', '-x', 'ir', module, '-o', made, COUNTERS], check=True)


def main():
    words = argparse.ArgumentParser(description=__doc__, formatter_class=argparse.RawDescriptionHelpFormatter)
    words.add_argument('program', help='the program that is made')
    words.add_argument('--libraries', metavar='FOLDER', help='where the libraries of the crates stand, by name')
    words.add_argument('--module', metavar='FILE', help='the whole program as LLVM keeps it, in place of libraries')
    given = words.parse_args()
    if not os.path.exists(RUNTIME):
        sys.exit('no ' + RUNTIME)
    kit = kit_folder()
    with tempfile.TemporaryDirectory() as folder:
        made = os.path.join(folder, 'sonata.o')
        if given.module:
            compile_module(kit, given.module, made)
        else:
            build(kit, with_counters(kit, folder), given.libraries and os.path.abspath(given.libraries), made)
        subprocess.run(['cc', '-o', given.program, made, os.path.join(kit, 'c', 'libos_c.a'), os.path.join(kit, 'c', 'liblibc_c.a'), RUNTIME,
                        '-ldl', '-lrt', '-lpthread', '-lm'], check=True)
    return 0


if __name__ == '__main__':
    sys.exit(main())
