"""ratios.py ROUNDS PROGRAM..: runs race at several placements of the code, and prints for each work the peers' time over this library's: the least and
the most of the placements; and both counts of instructions, where there is valgrind."""
import collections, os, re, shutil, subprocess, sys, tempfile

NOTES = """The peers are given each message's bytes; this library finds the cut. All come to the same answers, or it is said.
pugixml and rapidxml check neither repeated names nor characters, and build a tree; expat and libxml2 check both.
By hand means the attribute table, the limits of each value, the chart and the reply; what a parser does not check is not checked by hand either.
In sending, by hand too every text is tried for its characters."""


def timed(program, rounds):
    rows = {}
    for line in subprocess.run([program, '--rounds', rounds], capture_output=True, text=True, check=True).stdout.splitlines():
        work, name, each, byte = line.split('|')
        if not byte:
            sys.exit('%s, %s: %s' % (work, name, each))
        rows[work, name] = float(each), float(byte)
    return rows


def counted(program):
    """Instructions for each item, of all contestants."""
    rows = {}
    with tempfile.TemporaryDirectory() as room:
        for line in subprocess.run([program, '--list'], capture_output=True, text=True, check=True).stdout.splitlines():
            number, work, name, items = line.split('|')
            file = os.path.join(room, number)
            subprocess.run(['valgrind', '-q', '--tool=callgrind', '--collect-atstart=no', '--toggle-collect=counted', '--callgrind-out-file=' + file,
                            program, '--count', number], capture_output=True, check=True)
            total = re.search(r'^(?:totals|summary): (\d+)', open(file).read(), re.M)
            rows[work, name] = int(total.group(1)) / float(items)
    return rows


def spread(values):
    low, high = '%.2f' % min(values), '%.2f' % max(values)
    return low if low == high else low + '..' + high


def main():
    rounds, programs = sys.argv[1], sys.argv[2:]
    runs = [timed(p, rounds) for p in programs]
    counts = counted(programs[0]) if shutil.which('valgrind') else {}
    print(NOTES + '\n')
    works = collections.OrderedDict()
    for work, name in runs[0]:
        works.setdefault(work, []).append(name)
    for work, names in works.items():
        ours = names[0]
        told = '%.0f ns' % min(r[work, ours][0] for r in runs)
        if counts:
            told += ', %.0f instructions' % counts[work, ours]
        print('%s: %s' % (work, told))
        for name in names[1:]:
            line = '  %-20s %8.0f ns, %s times this library\'s' % (name, min(r[work, name][0] for r in runs), spread([r[work, name][0] / r[work, ours][0] for r in runs]))
            if counts:
                line += '; %.0f instructions, %.2f times' % (counts[work, name], counts[work, name] / counts[work, ours])
            print(line)
    for work in works:
        m = re.match(r'(.*, a byte at )(\d+)$', work)
        small = m and [w for w in works if w.startswith(m.group(1)) and int(w[len(m.group(1)):]) < int(m.group(2))]
        for other in small or []:
            ours = works[work][0]
            print('%s against %s: %s' % (work, other[len(m.group(1)):], spread([r[work, ours][1] / r[other, ours][1] for r in runs])))


main()
