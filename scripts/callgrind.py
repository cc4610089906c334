"""Counts the instructions inside calls, by callgrind; for the scripts beside it."""
import os
import subprocess
import tempfile

# the most instructions that a mean over a class may have, a node and for the drawer a record: a tenth over the largest that was counted
LIMIT = {'route': 210, 'inspect': 33, 'read': 60, 'draw': 260}

# clearing is counted by the instruction, not by the byte
ENV = dict(os.environ, GLIBC_TUNABLES='glibc.cpu.x86_rep_stosb_threshold=100000000')


def means(command, calls, mark):
    """Runs a program that prints `name class streets n shared` after each call that is counted, once `mark` has returned: for each class, street pair and n, and
    each name, the instructions of each call, shared among what the line says."""
    with tempfile.TemporaryDirectory() as folder:
        toggles = [f'--toggle-collect={call}' for call in calls]
        run = ['valgrind', '--quiet', '--tool=callgrind', '--collect-atstart=no', *toggles, f'--dump-after={mark}', f'--callgrind-out-file={folder}/counts']
        out = subprocess.run([*run, *command], check=True, stdout=subprocess.PIPE, text=True, env=ENV).stdout
        groups = {}
        for part, line in enumerate(out.splitlines(), 1):
            name, row_class, streets, n, shared = line.split()
            with open(f'{folder}/counts.{part}', encoding='utf-8') as f:
                count = next(int(text.split()[1]) for text in f if text.startswith(('summary:', 'totals:')))
            groups.setdefault((streets, int(n), row_class), {}).setdefault(name, []).append(count / int(shared))
    return groups


def library(rows, calls):
    """The same of the library's calls: builds the crate `measure` and bench/measure.c, and runs them on the rows of a file. In the repository's root."""
    build(['scripts/staticlib', 'measure'])
    with tempfile.TemporaryDirectory() as folder:
        build(['cc', '-O2', '-o', f'{folder}/measure', 'bench/measure.c', 'target/staticlib/libmeasure.a'])
        return means([f'{folder}/measure', rows], [f'measure_{name}' for name in calls], 'measure_mark')


def build(command):
    built = subprocess.run(command, capture_output=True, text=True)
    if built.returncode != 0:
        raise SystemExit(built.stdout + built.stderr)
