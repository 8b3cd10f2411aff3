"""What the scripts of this folder share: the program that they measure, and the files that their results stand in.

The file is bench/NAME.tsv. Its first line is `#` and fields KEY=VALUE: the date (UTC), the cores of the machine, the commit, with '+' where
the tree differs from it, the program, and what the script adds. The second line names the columns, and each other line is a row. Tabs
stand between fields, and '-' where nothing is known.
"""
import datetime
import os
import subprocess
import sys

TOP = os.path.dirname(os.path.dirname(os.path.realpath(__file__)))
sys.path.insert(0, os.path.join(TOP, 'tools'))
import usage  # noqa: E402


def parser(about, writes=True):
    """The words of a script that runs a built program."""
    made = usage.Parser(about)
    made.add_argument('--program', metavar='PATH', help='the program to run, in place of the proved one')
    if writes:
        made.add_argument('--write', action='store_true', help='put the rows into bench/NAME.tsv')
    return made


def program(given, crate, builds=False):
    """The program that is named, or the proved one of a crate, which is built first where the script does that."""
    script = f'bench/{os.path.basename(sys.argv[0])}'
    found = os.path.abspath(given.program) if given.program else f'{TOP}/crates/{crate}/out/{crate}'
    if builds and not given.program:
        print(f'{script}: building by tools/build {crate}, which proves what has changed; --program PATH takes a program as it is',
              file=sys.stderr, flush=True)
        if subprocess.run([f'{TOP}/tools/build', crate], check=False).returncode:
            sys.exit(1)
    if not os.access(found, os.X_OK):
        usage.stop(f'there is no program {found}: run tools/build {crate}, or name one by --program')
    return found


def stamp():
    """The date, the machine's cores and the commit of a result that is made now."""
    def git(*words):
        return subprocess.run(['git', *words], cwd=TOP, stdout=subprocess.PIPE, stderr=subprocess.DEVNULL, text=True, check=False).stdout.strip()

    differs = git('status', '--porcelain', '--', '.', ':(exclude)*.tsv', ':(exclude)*__pycache__*')
    commit = git('rev-parse', '--short', 'HEAD')
    return {'date': datetime.datetime.now(datetime.timezone.utc).date().isoformat(), 'cores': os.cpu_count(),
            'commit': commit + '+' * bool(differs) if commit else '-'}


def field(cell):
    """What stands in a field: a dash for nothing."""
    return '-' if cell is None or cell == '' else str(cell)


class Table:
    """Rows that are printed as they come, and written together."""

    def __init__(self, *columns):
        self.lines = []
        self.add(*columns)

    def add(self, *cells):
        self.lines.append('\t'.join(map(field, cells)))
        print(self.lines[-1], flush=True)

    def write(self, given, name, program=None, **more):
        """Writes the rows where that is asked for. A program outside the repository is told by its name alone."""
        if not given.write:
            return
        shown = os.path.relpath(program, TOP) if program else None
        of = {'program': os.path.basename(shown) if shown.startswith('..') else shown} if shown else {}
        head = '\t'.join(['#', *(f'{key}={field(value)}' for key, value in {**stamp(), **of, **more}.items())])
        with open(f'{TOP}/bench/{name}.tsv', 'w', encoding='utf-8') as file:
            file.writelines(f'{line}\n' for line in [head, *self.lines])
