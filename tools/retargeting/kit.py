"""The kit's programs; the library proved and built by it, and the LLVM module kept that its back end hands to clang."""
import os
import shlex
import shutil
import subprocess
from pathlib import Path

from . import Refused

RT = ('rt', 'rtlib.py')
# In place of the kit's clang while the library is built: it keeps what it is given, once, and goes on as the kit's. The back end runs it with
# an empty environment, so where it keeps things stands in it.
KEEPS = '''#!/bin/sh
set -eu
kept={kept}
[ ! -e "$kept/words" ] || {{ echo 'a second call of clang: the library is no longer one module' >&2; exit 1; }}
printf '%s\\n' "$@" >"$kept/words"
cp module.bc "$kept/module.bc"
exec {clang} "$@"
'''


def run(words, where=None, remarks=False):
    """What a command prints, or with `remarks` what it says beside it; where it fails, what it said against it."""
    ended = subprocess.run([str(word) for word in words], cwd=where, stdin=subprocess.DEVNULL, stdout=subprocess.PIPE,
                           stderr=subprocess.PIPE)
    if ended.returncode != 0:
        said = (ended.stdout + ended.stderr).decode(errors='replace').strip()
        raise Refused(f'{Path(str(words[0])).name} failed:\n{said}')
    return ended.stderr if remarks else ended.stdout


class Kit:
    def __init__(self):
        if not shutil.which('rt'):
            raise Refused('rt is missing: the Rattle kit has to be installed')
        self.home = Path(run(['rt', 'doc']).decode().strip()).parent
        self.bin = self.home / 'toolchain' / 'bin'
        self.clang, self.ar = self.bin / 'clang', self.bin / 'llvm-ar'

    def shadow(self, place, kept):
        """The kit by links, but for a clang that keeps what it is given; and rt's own files, which take for the kit where they stand."""
        for folder, own in {'.': ('bin', 'toolchain'), 'bin': RT, 'toolchain': ('bin',), 'toolchain/bin': ('clang',)}.items():
            (place / folder).mkdir(parents=True, exist_ok=True)
            for path in (self.home / folder).iterdir():
                if path.name not in own:
                    (place / folder / path.name).symlink_to(path)
        for name in RT:
            shutil.copy(self.home / 'bin' / name, place / 'bin' / name)
        wrapper = place / 'toolchain/bin/clang'
        wrapper.write_text(KEEPS.format(kept=shlex.quote(str(kept)), clang=shlex.quote(str(self.clang))))
        wrapper.chmod(0o755)

    def build(self, root, library, kept):
        """Proves the library and writes its archive, as tools/build does, and builds it once more; the module and clang's words go to `kept`."""
        aside = kept.parent / 'aside'  # what rt keeps beside a kit goes with it
        shadow = aside / 'kit'
        for folder in (aside, kept):
            shutil.rmtree(folder, ignore_errors=True)
        kept.mkdir(parents=True)
        self.shadow(shadow, kept)
        try:
            run([root / 'tools/build', library])
            said = run([shadow / 'bin/rt', 'lib'], root / 'crates' / f'{library}_c').decode()
        except Refused as refused:
            raise Refused(f'{library} is not proved and built: {refused}') from refused
        finally:
            shutil.rmtree(aside, ignore_errors=True)
        if not (kept / 'module.bc').is_file():
            raise Refused('the back end no longer hands clang a module.bc')
        words = (kept / 'words').read_text().replace(str(shadow), str(self.home))
        (kept / 'words').write_text(words)
        return [line for line in said.splitlines() if line.startswith('logic=proved')][-1]

    def text_of(self, module):
        """An LLVM module as text."""
        return run([self.clang, '--no-default-config', '--target=x86_64-unknown-linux-gnu', '-x', 'ir', '-S', '-emit-llvm', '-O0',
                    '-Xclang', '-disable-llvm-passes', module.name, '-o', '-'], module.parent).decode()

    def compiled_as_kept(self, kept, text):
        """The object that the kit's own words make of a text."""
        (kept / 'text.ll').write_text(text)
        words = (kept / 'words').read_text().splitlines()
        run([self.clang, *({'module.bc': 'text.ll', 'module.o': 'text.o'}.get(word, word) for word in words)], kept)
        return (kept / 'text.o').read_bytes()

    def back_ends(self):
        """The names of the back ends that this clang has."""
        lines = run([self.clang, '--print-targets']).decode().splitlines()
        return {line.split(' - ')[0].strip() for line in lines if ' - ' in line}

    def layout_of(self, words):
        """Data layout and triple as this clang has them for a target, each in its quotes."""
        text = run([self.clang, *words, '-x', 'c', '-S', '-emit-llvm', '-o', '-', os.devnull]).decode()
        return [line.split(' = ', 1)[1] for key in ('datalayout', 'triple') for line in text.splitlines() if line.startswith(f'target {key} = ')]
