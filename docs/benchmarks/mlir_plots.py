#!/usr/bin/env python3
"""Draws what `tools/real_programs report` counted, and writes it as a table.

    mlir_plots.py REPORT.tsv FOLDER     writes FOLDER/mlir_left.svg and FOLDER/mlir_time.svg, and the table to standard output
"""
import collections, csv, sys

COLOURS = ['#1b6ca8', '#e08e2b', '#8f8f8f']


def totals(path):
    """The rows of each program added up."""
    programs = collections.OrderedDict()
    with open(path, encoding='utf-8', newline='') as file:
        rows = list(csv.reader(file, delimiter='\t'))[1:]
    for row in rows:
        name = row[0].split('/')[0]
        mine = programs.setdefault(name, {'modules': 0, 'sums': [0.0] * 13, 'refused': 0, 'memory': 0, 'worst': 0.0})
        mine['modules'] += 1
        if row[11] == '-':
            mine['refused'] += 1
        else:
            mine['worst'] = max(mine['worst'], float(row[9]) / max(float(row[11]), 0.01))
        for i in range(1, 14):
            if i not in (10, 12) and row[i] not in ('-', ''):
                # Modules that mlir-opt doesn't survive are left out of both times.
                if i == 9 and row[11] == '-':
                    continue
                mine['sums'][i - 1] += float(row[i])
        mine['memory'] = max(mine['memory'], int(row[10]))
    return programs


def bars(title, groups, legend, unit, path):
    """Groups of bars: a name and a value for each entry of the legend."""
    width, height, left, base = 720, 300, 60, 250
    most = max(value for _, values in groups for value in values) or 1
    out = [f'<svg xmlns="http://www.w3.org/2000/svg" width="{width}" height="{height}" font-family="sans-serif" font-size="12">',
           f'<rect width="{width}" height="{height}" fill="white"/>', f'<text x="{left}" y="20" font-size="14">{title}</text>']
    for i, name in enumerate(legend):
        out.append(f'<rect x="{left + 210 * i}" y="32" width="12" height="12" fill="{COLOURS[i]}"/>'
                   f'<text x="{left + 18 + 210 * i}" y="43">{name}</text>')
    out.append(f'<line x1="{left}" y1="{base}" x2="{width - 20}" y2="{base}" stroke="black"/>')
    step = (width - left - 20) / len(groups)
    bar = step * 0.8 / len(legend)
    for i, (name, values) in enumerate(groups):
        start = left + i * step + step * 0.1
        out.append(f'<text x="{start + step * 0.4:.0f}" y="{base + 18}" text-anchor="middle">{name}</text>')
        for j, value in enumerate(values):
            tall = value / most * 170
            out.append(f'<rect x="{start + j * bar:.1f}" y="{base - tall:.1f}" width="{bar * 0.9:.1f}" height="{tall:.1f}" fill="{COLOURS[j]}"/>'
                       f'<text x="{start + (j + 0.45) * bar:.1f}" y="{base - tall - 4:.1f}" text-anchor="middle" font-size="10">{value:{unit}}</text>')
    with open(path, 'w', encoding='utf-8') as file:
        file.write('\n'.join(out + ['</svg>']) + '\n')


def main(path, folder):
    programs = totals(path)
    print('| | modules | operations | after | by `mlir-opt` | instructions | after | by `sccp,dce` | by `sccp,adce,simplifycfg` | seconds | of `mlir-opt` | at most | memory |')
    print('|---|---|---|---|---|---|---|---|---|---|---|---|---|')
    left, time = [], []
    for name, it in programs.items():
        s = it['sums']
        refused = f' ({it["refused"]} not survived)' if it['refused'] else ''
        share = f'{s[8] / s[10]:.2f}' if s[10] else '–'
        print(f'| {name} | {it["modules"]} | {s[1]:,.0f} | {s[2]:,.0f} | {s[3]:,.0f}{refused} | {s[4]:,.0f} | {s[5]:,.0f} | {s[6]:,.0f} | {s[7]:,.0f} '
              f'| {s[8]:.2f} | {s[10]:.2f} ({share}) | {it["worst"]:.2f} | {it["memory"] / 1024:.0f} MiB |')
        left.append((name, [100 * s[i] / s[4] for i in (5, 6, 7)]))
        time.append((name, [s[8], s[10]]))
    bars('Instructions of LLVM IR that are left, in percent', left,
         ['plir_mlir', 'opt sccp,dce', 'opt sccp,adce,simplifycfg'], '.1f', f'{folder}/mlir_left.svg')
    bars('Processor time of the whole process, in seconds', time, ['plir_mlir', 'mlir-opt --sccp --canonicalize'], '.2f', f'{folder}/mlir_time.svg')


if __name__ == '__main__':
    if len(sys.argv) != 3:
        sys.exit(__doc__)
    main(*sys.argv[1:])
