#!/usr/bin/env python3
"""gate.py [PID]

Runs the gate, `rt ci`, from nothing where nothing is kept, and then prints the processor time that it took, by crate, in minutes:
proofs, wrong bodies, tests, and what is built and run. With a PID it watches the `rt ci` that runs as this process, and starts none.

Every other second it looks at the processor time of each process below the gate's; what a process takes after the last look is
lost. The toolchain's folders have names of their own for wrong bodies (`rt-edit`), and its commands name the crate; what names
none is summed as `other`. Linux alone, as it reads /proc.
"""
import collections
import os
import re
import subprocess
import sys
import time

PARTS = ('proofs', 'wrong bodies', 'tests', 'builds and runs')
TICKS = os.sysconf('SC_CLK_TCK')


def stat_of(pid):
    """The parent of a process, when it began, and the processor time that it took."""
    with open(f'/proc/{pid}/stat', errors='replace') as it:
        fields = it.read().rsplit(')', 1)[1].split()
    return int(fields[1]), int(fields[19]), (int(fields[11]) + int(fields[12])) / TICKS


def words_of(pid):
    with open(f'/proc/{pid}/cmdline', errors='replace') as it:
        return it.read().split('\0')


def folder_of(pid):
    try:
        return os.readlink(f'/proc/{pid}/cwd')
    except OSError:
        return ''


def named(words, folder):
    """The crate for which a process works, and the part of the gate to which it belongs."""
    line = ' '.join(words)
    found = re.search(r'--crate-name (\w+)', line) or re.search(r'crates/(\w+)', folder) or re.search(r'crates/(\w+)', line)
    crate = found.group(1) if found else 'other'
    if 'rt-edit' in folder or 'rt-edit' in line:
        return crate, 'wrong bodies'
    if not re.search(r'/rattle$', words[0]) or not re.search(r' (build|check|verdict) ', line):
        return crate, 'builds and runs'
    return crate, 'tests' if ' --test' in line or crate.endswith('_tests') else 'proofs'


def look(gate, seen):
    """Notes the processor time of each process below the gate's. Answers whether the gate still runs."""
    stats = {}
    for name in os.listdir('/proc'):
        if name.isdigit():
            try:
                stats[int(name)] = stat_of(name)
            except (OSError, IndexError):
                pass
    for pid, (_, begun, took) in stats.items():
        above, steps = pid, 0
        while above in stats and above != gate and steps < 100:
            above, steps = stats[above][0], steps + 1
        if above != gate or pid == gate:
            continue
        try:
            if (pid, begun) not in seen:
                seen[pid, begun] = [named(words_of(pid), folder_of(pid)), took]
            seen[pid, begun][1] = max(seen[pid, begun][1], took)
        except OSError:
            pass
    return gate in stats


def print_table(seen):
    took = collections.defaultdict(lambda: dict.fromkeys(PARTS, 0.0))
    for (crate, part), seconds in seen.values():
        took[crate][part] += seconds
    print('| crate | ' + ' | '.join(PARTS) + ' | in all |')
    print('|---' * (len(PARTS) + 2) + '|')
    rows = sorted(took.items(), key=lambda row: -sum(row[1].values()))
    rows.append(('in all', {part: sum(row[1][part] for row in rows) for part in PARTS}))
    for crate, parts in rows:
        cells = [f'{parts[part] / 60:.1f}' for part in PARTS] + [f'{sum(parts.values()) / 60:.1f}']
        print(f"| {crate if crate in ('other', 'in all') else f'`{crate}`'} | " + ' | '.join(cells) + ' |')


def main():
    if len(sys.argv) > 2:
        sys.exit(__doc__)
    seen, gate = {}, None
    if len(sys.argv) == 1:
        gate = subprocess.Popen(['rt', 'ci'], cwd=os.path.dirname(os.path.dirname(os.path.abspath(__file__))))
    try:
        while look(gate.pid if gate else int(sys.argv[1]), seen) and (not gate or gate.poll() is None):
            time.sleep(2)
    except KeyboardInterrupt:
        pass
    print_table(seen)
    sys.exit(gate.returncode if gate else 0)


if __name__ == '__main__':
    main()
