"""Mutants tried on rows: modules copied into one made crate, and what the prover says of them.

For each mutant, the modules between the changed one and the rows (those that import it, directly or not, and that a row imports) are copied under a name of
their own (M17fentextRead); everything else is taken from the proved libraries in the crates' out/. So many mutants are tried in one run of the prover, each by
itself, across crates, without code.
"""
import os
import re
import shutil
import subprocess
import sys

from mutating.project import PATH, module_of

IN_TEXT = re.compile(r'Rattle\.[A-Za-z0-9_]+\.(?:specs|proofs)\.[A-Za-z0-9_.-]*[A-Za-z0-9_]')


class Try:
    """One mutant (or None: nothing changed) with files of rows."""

    def __init__(self, number, mutant, rows):
        self.number, self.mutant, self.rows = number, mutant, rows
        self.key = mutant.module.key if mutant else None
        self.place = (mutant.module.key, mutant.definition.name) if mutant else None


def kit():
    """The folder of the proof kit."""
    shutil.which('rt') or sys.exit('mutants: no rt here')
    return os.path.dirname(subprocess.run(['rt', 'doc'], stdout=subprocess.PIPE, check=True).stdout.decode('utf8').strip())


def label(number, key):
    return f'M{number}{key[0].replace("_", "")}{key[2]}'


def write(path, text):
    with open(path, 'w', encoding='utf8') as file:
        file.write(text)


class Prover:
    def __init__(self, project, folder, seconds, keep):
        self.project, self.folder, self.seconds, self.keep = project, folder, seconds, keep
        self.runs, self.row_files = 0, {}

    # ---- the files

    def copied(self, one):
        """The modules that are copied for a mutant; without a change, all of the rows' own crates, as they stand in the files."""
        project = self.project
        needed = set().union(*(project.below(row) for row in one.rows)) | ({one.key} if one.key else set())
        if one.key is None:
            crates = {row[0] for row in one.rows}
            return {key for key in needed if key[0] in crates or not self.proved(key[0])}
        return {key for key in needed if key in one.rows or one.key in project.below(key) or not self.proved(key[0])}

    def proved(self, crate):
        return os.path.isdir(self.library(crate))

    def library(self, crate):
        """A proved library, as `rt check` of a crate above or `rt ci` leaves it."""
        return f'{self.project.root}/crates/{crate}/out/rlib/{crate}.rlib'

    @staticmethod
    def led(text, number, copied):
        """A module's text with the paths of copied modules led to their copies."""
        def lead(found):
            crate, library, rest = PATH.match(found.group()).groups()
            name = rest.split('.')[0]
            if (crate, library, name) in copied:
                return f'Rattle.mutants.{library}.{label(number, (crate, library, name))}{rest[len(name):]}'
            return found.group()
        return IN_TEXT.sub(lead, text)

    def unfoldable_below(self, key):
        """The unfoldable definitions below a file of rows: those that it imports, and the others with where they stand."""
        module, project = self.project.modules[key], self.project
        taken = {name for _, names in module.uses for name in names or []}
        own, others = [], {}
        for path, names in module.uses:
            declared = project.modules[module_of(path)].declared if module_of(path) in project.modules else {}
            own += [name for name in names or [] if name in declared and declared[name].unfoldable]
        for below in sorted(project.below(key)):
            for one in project.modules[below].declared.values() if below[1] == 'specs' else ():
                if one.unfoldable and one.name not in taken and one.text.startswith('unfoldable pub '):
                    others.setdefault(one.name, []).append(below)
        return own, {name: where[0] for name, where in sorted(others.items()) if len(where) == 1}

    def row_file(self, key, place):
        """Those rows of a file that reach a definition, each with every unfoldable definition below it: so that a row is refused because it computes to
        something else, and not because a changed definition calls one that the row does not unfold. Also which line is which row."""
        rows = self.project.rows_reaching(key, place)
        known = (key, tuple(row.name for row in rows))
        if known not in self.row_files:
            self.row_files[known] = self.rows_with_lines(self.project.modules[key], rows)
        return self.row_files[known]

    def rows_with_lines(self, module, rows):
        own, others = self.unfoldable_below(module.key)
        lines = [line for line in module.text.split('\n') if line.startswith('use ')]
        lines += [f'use Rattle.{where[0]}.specs.{where[2]}.{{{name}}}' for name, where in others.items()]
        names = {}
        for one in rows:
            lines += ['', *f'pub {one.name} : {one.type}'.split('\n')]
            lines += ['unfolding ' + ' '.join(own + list(others))] if own or others else []
            for line in module.body(one).split('\n'):
                lines.append(line)
                field = re.match(r'\s+([^\s=]+) =', line)
                names[len(lines)] = f'{one.name}.{field.group(1)}' if field else one.name
        return '\n'.join(lines) + '\n', names

    def make(self, folder, tries):
        """Writes the made crate; returns the crates that it uses."""
        modules, used = {'specs': [], 'proofs': []}, set()
        for library in ('src', *modules):
            os.makedirs(f'{folder}/{library}')
        write(f'{folder}/src/lib.rt', '// mutants\n')
        for one in tries:
            copied = self.copied(one)
            for key in sorted(copied):
                text = self.row_file(key, one.place)[0] if key in one.rows else one.mutant.text() if key == one.key else self.project.modules[key].text
                text = self.led(text, one.number, copied)
                used |= set(re.findall(r'Rattle\.([A-Za-z0-9_]+)\.', text)) & set(self.project.below_crate)
                write(f'{folder}/{key[1]}/{label(one.number, key)}.antt', text)
                modules[key[1]].append(label(one.number, key))
        for library, names in modules.items():
            write(f'{folder}/{library}/Lib.antt', ''.join(f'pub mod {name}\n' for name in names))
        return sorted(used)

    # ---- a run

    def command(self, folder, used):
        home = kit()
        words = [f'{home}/bin/rattle', 'check', '--crate-name', 'mutants', f'{folder}/src/lib.rt', '--extern', f'std={home}/rlibs/std.rlib']
        for crate in used:
            words += ['--extern', f'{crate}={self.library(crate)}']
        for crate in self.project.below_crate:
            words += ['-L', f'dependency={os.path.dirname(self.library(crate))}']
        return words + ['-L', f'dependency={home}/rlibs', '--antt-project', f'{home}/rattle/logic/antt-project.json', '--logic-built', f'{home}/logic_built']

    def verdicts(self, tries):
        """number -> (verdict, why), each by itself: void (a definition does not type-check or does not end), refused (with the rows), survived."""
        self.runs += 1
        folder = f'{self.folder}/run{self.runs}'
        used = self.make(folder, tries)
        try:
            said = subprocess.run(self.command(folder, used), stdout=subprocess.PIPE, stderr=subprocess.STDOUT, timeout=self.seconds, check=False)
            text, status = said.stdout.decode('utf8', 'replace'), said.returncode
        except subprocess.TimeoutExpired:
            text, status = '', None
        write(f'{folder}/.log', text)
        if status not in (0, 1) or not re.search(r'(?m)^logic=', text):
            self.forget(folder)
            return self.halved(tries, 'no verdict in time' if status is None else 'no verdict: ' + text.strip().split('\n')[-1][:200])
        found = self.heard(folder, text, tries)
        if status == 1 and all(verdict == 'survived' for verdict, _ in found.values()):
            sys.exit(f'mutants: refused for another reason, see {folder}/.log')
        self.forget(folder)
        return found

    def forget(self, folder):
        if not self.keep:
            shutil.rmtree(folder, ignore_errors=True)

    def halved(self, tries, why):
        """Looks for the one of which the prover cannot tell."""
        if 'cannot read' in why:
            sys.exit(f'mutants: {why}')
        if len(tries) == 1:
            return {tries[0].number: ('void', [why])}
        half = len(tries) // 2
        return {**self.verdicts(tries[:half]), **self.verdicts(tries[half:])}

    def heard(self, folder, text, tries):
        void, refused = {}, {}
        labels = {label(one.number, key): (one.place, key) for one in tries for key in one.rows}
        for found in re.finditer(rf'(?m)^{re.escape(folder)}/(specs|proofs)/(M(\d+)\w+)\.antt:(\d+):\d+: error: (.*)$', text):
            library, name, number, line, why = found.groups()
            if library == 'specs':
                void.setdefault(int(number), []).append(f'{name}: {why[:160]}')
            else:
                place, key = labels[name]
                row = self.row_file(key, place)[1].get(int(line), f'line {line}')
                refused.setdefault(int(number), set()).add(f'{key[0]}/{key[2]}:{row}')
        found = {}
        for one in tries:
            n = one.number
            found[n] = ('void', void[n]) if n in void else ('refused', sorted(refused[n])) if n in refused else ('survived', [])
        return found
