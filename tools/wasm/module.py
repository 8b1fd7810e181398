"""The program's module of WebAssembly: the one of LLVM's that a proved build compiles, taken on its way, and given another target."""
import os
import re
import shutil
import subprocess
import tempfile
from typing import Dict, Iterator, List, Set

from common import TOP, Stopped, read_file, write_file

HERE = os.path.dirname(os.path.abspath(__file__))
CRATES = os.path.join(TOP, 'crates')
CRATE = 'superpager'
MODULE = os.path.join(CRATES, CRATE, 'out', 'superpager.wasm')
# The processor that its code is for: WebAssembly of 2025, without threads.
TARGET = ('--target=wasm64-unknown-unknown', '-mcpu=lime1')
LAYOUT = 'e-m:e-p:64:64-p10:8:8-p20:8:8-i64:64-i128:128-n32:64-S128-ni:1:10:20'
# No thread is started. Said in the module itself that leaves no function whose address is taken, and so no table of functions, which Binaryen would
# have to lower too.
NO_THREAD = 'define internal i32 @pthread_create(ptr %thread, ptr %all, ptr %begin, ptr %given) {\n  ret i32 11\n}'
# What a thread that spins would tell the processor: there is none.
NO_PAUSE = 'define internal void @no_pause() {\n  ret void\n}'
# What of the text of LLVM's module is for x86-64 and Linux alone, and what stands in its place. Each of the first has to be there once, and the others
# may be there any number of times.
RETARGETED_ONCE = (
    ('^target datalayout = .*', 'target datalayout = "%s"' % LAYOUT),
    ('^target triple = .*', 'target triple = "wasm64-unknown-unknown"'),
    (r'^declare [^\n]* @pthread_create\(.*', NO_THREAD),
)
RETARGETED = (
    (r'^declare void @llvm\.x86\.sse2\.pause\(.*', NO_PAUSE),
    (r'@llvm\.x86\.sse2\.pause\b', '@no_pause'),
    (' "(probe-stack|stack-probe-size|target-cpu|target-features)"="[^"]*"', ''),
)
# What Binaryen is told that the module uses, and what it makes of it.
LOWERED = ('--enable-memory64', '--enable-bulk-memory', '--enable-sign-ext', '--enable-nontrapping-float-to-int', '--enable-mutable-globals',
           '--enable-multivalue', '--memory64-lowering', '-O3')
EXPORTS = ('superpager_room', 'superpager_run', 'superpager_told', 'superpager_told_length')
# What the page's script has.
IMPORTS = ('_exit', 'abort')
STACK = 8 << 20
# How rattle's clang is called in place of the kit's: it keeps the module, and compiles as ever.
WRAPPER = '#!/bin/sh\n[ -f module.bc ] && cp module.bc "%s"\nexec "%s" "$@"\n'


def need(command: str, package: str) -> str:
    """The path of a command that a package of the system has."""
    path = shutil.which(command)
    if path is None:
        raise Stopped('%s is not installed: on Debian it is in the package %s' % (command, package))
    return path


def call(words: List[str], **more: str) -> None:
    """Runs a command. Where it fails, its last line says why."""
    ran = subprocess.run(words, stdin=subprocess.DEVNULL, stdout=subprocess.PIPE, stderr=subprocess.STDOUT, **more)
    if ran.returncode:
        said = ran.stdout.decode(errors='backslashreplace').split('\n')
        told = [line for line in said if 'error' in line] or [line for line in said if line] or ['']
        raise Stopped('%s ended with status %d: %s' % (os.path.basename(words[0]), ran.returncode, told[-1]))


def kit_folder() -> str:
    """The folder of the Rattle kit."""
    if shutil.which('rt') is None:
        raise Stopped('rt is not installed: it comes with the Rattle kit')
    said = subprocess.run(['rt', 'doc'], stdout=subprocess.PIPE, check=True).stdout.decode()
    return os.path.dirname(said.strip())


def uses() -> Dict[str, List[str]]:
    """What each crate of crates.txt names, by its name."""
    lines = read_file(os.path.join(TOP, 'crates.txt')).decode().split('\n')
    rows = [line.partition('#')[0].partition(':') for line in lines]
    return {head.split(' ')[0]: tail.split() for head, colon, tail in rows if colon}


def below() -> List[str]:
    """The crates that the program stands on, those of the kit among them."""
    named, found, left = uses(), set(), [CRATE]
    while left:
        new = set(named.get(left.pop(), [])) - found
        found |= new
        left += new
    return sorted(found)


def sources() -> Iterator[str]:
    """The files that the module is made of."""
    for crate in [CRATE] + below():
        for part in ('src', 'specs', 'proofs'):
            for folder, _, names in os.walk(os.path.join(CRATES, crate, part)):
                yield from (os.path.join(folder, name) for name in names)
    yield from (os.path.join(HERE, name) for name in ('heap.c', 'host.c', 'room.h', 'module.py'))


def is_fresh() -> bool:
    """Whether the module that was made is newer than all that it is made of."""
    return os.path.exists(MODULE) and all(os.path.getmtime(path) <= os.path.getmtime(MODULE) for path in sources())


def library_words(kit: str) -> List[str]:
    """What tells rattle where the libraries are: those that `rt ci` proved and left, and the kit's."""
    words = ['--extern', 'std=%s/rlibs/std.rlib' % kit, '-L', 'dependency=%s/rlibs' % kit]
    for crate in below():
        is_own = os.path.isdir(os.path.join(CRATES, crate, 'src'))
        path = os.path.join(CRATES, crate, 'out', 'rlib', crate + '.rlib') if is_own else '%s/rlibs/%s.rlib' % (kit, crate)
        if not os.path.exists(os.path.join(path, 'format')):
            raise Stopped('the library of crates/%s is not there: run `.ci/run`, which proves all and leaves it' % crate)
        words += ['--extern', '%s=%s' % (crate, path)]
    return words


def wrapped_tools(kit: str, folder: str, kept: str) -> str:
    """A folder of the kit's tools, but for a clang that keeps what it compiles under this name."""
    tools, there = os.path.join(folder, 'tools'), os.path.join(kit, 'toolchain')
    os.makedirs(os.path.join(tools, 'bin'))
    os.symlink(os.path.join(there, 'lib'), os.path.join(tools, 'lib'))
    for name in set(os.listdir(os.path.join(there, 'bin'))) - {'clang'}:
        os.symlink(os.path.join(there, 'bin', name), os.path.join(tools, 'bin', name))
    clang = os.path.join(tools, 'bin', 'clang')
    write_file(clang, WRAPPER % (kept, os.path.join(there, 'bin', 'clang')))
    os.chmod(clang, 0o755)
    return tools


def proved_bitcode(kit: str, folder: str) -> str:
    """Proves the program over the libraries, and builds it for the least x86-64, which it then doesn't look for as it starts. Answers the path of
    LLVM's module of it, which is in the folder."""
    kept = os.path.join(folder, 'proved.bc')
    tools = wrapped_tools(kit, folder, kept)
    call(['%s/bin/rattle' % kit, 'build', '--crate-name', CRATE, 'src/main.rt'] + library_words(kit)
         + ['--antt-project', '%s/rattle/logic/antt-project.json' % kit, '--logic-built', '%s/logic_built' % kit, '--toolchain', tools,
            '--cpu', 'x86-64', '--backend', 'llvm', '-o', os.path.join(folder, 'program.o')], cwd=os.path.join(CRATES, CRATE))
    if not os.path.exists(kept):
        raise Stopped("rattle's clang was not called with a module")
    return kept


def retargeted(text: str) -> str:
    """LLVM's module as text, for WebAssembly."""
    for what, by in RETARGETED_ONCE:
        text, times = re.subn(what, by, text, flags=re.M)
        if times != 1:
            raise Stopped("LLVM's module has another form than is known here")
    for what, by in RETARGETED:
        text = re.sub(what, by, text, flags=re.M)
    left: Set[str] = set(re.findall(r'@llvm\.x86[.\w]*|asm sideeffect "[^"]+"', text))
    if left:
        raise Stopped("LLVM's module has what is of x86-64 alone: %s" % ', '.join(sorted(left)))
    return text


def lowered(bitcode: str, kit: str, folder: str) -> bytes:
    """The module of WebAssembly, with 32 bits of an address, of LLVM's module at this path."""
    path = lambda name: os.path.join(folder, name)
    clang = os.path.join(kit, 'toolchain', 'bin', 'clang')
    call([clang, '--target=x86_64-unknown-linux-gnu', '-S', '-emit-llvm', '-Xclang', '-disable-llvm-passes', '-x', 'ir', bitcode, '-o',
          path('x86.ll')])
    write_file(path('wasm.ll'), retargeted(read_file(path('x86.ll')).decode()))
    call([clang, *TARGET, '-O3', '-ffunction-sections', '-fdata-sections', '-c', '-x', 'ir', path('wasm.ll'), '-o', path('program.wasm.o')])
    for name in ('heap', 'host'):
        call([clang, *TARGET, '-O2', '-ffreestanding', '-fno-builtin', '-c', os.path.join(HERE, name + '.c'), '-o', path(name + '.o')])
    write_file(path('imports'), ''.join(name + '\n' for name in IMPORTS))
    objects = [path(name) for name in ('program.wasm.o', 'heap.o', 'host.o')]
    call(['wasm-ld', '-mwasm64', '--no-entry', *['--export=' + name for name in EXPORTS], '--allow-undefined-file=' + path('imports'),
          '--fatal-warnings', '--stack-first', '-z', 'stack-size=%d' % STACK, '--gc-sections', *objects, '-o', path('64.wasm')],
         executable=os.path.join(kit, 'toolchain', 'bin', 'ld.lld'))
    call([need('wasm-opt', 'binaryen'), *LOWERED, path('64.wasm'), '-o', path('32.wasm')])
    return read_file(path('32.wasm'))


def made_module() -> bytes:
    """The module, which is made where something that it is made of is newer than the one that is there."""
    if not is_fresh():
        need('wasm-opt', 'binaryen')
        kit = kit_folder()
        with tempfile.TemporaryDirectory() as folder:
            module = lowered(proved_bitcode(kit, folder), kit, folder)
        os.makedirs(os.path.dirname(MODULE), exist_ok=True)
        with open(MODULE, 'wb') as out:
            out.write(module)
    return read_file(MODULE)
