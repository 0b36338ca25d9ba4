#!/usr/bin/env python3
"""Finishes what several switches sent for the queries of examples/tour, without their refine lines, on Dask: the rows of all switches stand in one frame, are
parted by query, level and window, and each part is grouped as the rest of its query says.

    for n in 0 1 2 3 4 5 6 7; do sonata emit tour.switch flat.query tour.several.plan switches/switch-$n.pcap > switches/$n.reports; done
    rest.py tour.several.plan switches/*.reports > rest.txt

The plan has no more in the switches than what adds up over them: of `gathered` the operators up to the distinct, of the others those up to the reduce. So what is
left is: each pair once, and then counted; and sums of sums. It prints `window query key number`, sorted."""

import argparse
import os
import sys

import cluster

HERE = os.path.dirname(os.path.abspath(__file__))
sys.path.insert(0, os.path.join(HERE, '..', '..', 'view'))
import frames  # noqa: E402

COLUMNS = {'query': 'object', 'level': 'int64', 'w': 'int64', 'key': 'int64', 'value': 'int64'}
LEAST = {'gathered': 150, 'talkers': 200000, 'opened': 100}
WIDTH = {'gathered': 2**16 - 1, 'talkers': 2**32 - 1, 'opened': 2**16 - 1}


def read(plan, name):
    """The rows that a switch sent, as a frame of pandas, on a worker."""
    import pandas
    names = frames.names_of(plan)
    try:
        with open(name, 'rb') as file:
            rows = [(*frames.named(names, lane)[:2], window, *columns[:2]) for window, lane, kind, _, columns in frames.rows(frames.frames(file)) if kind != 'end']
    except frames.Spoilt as fault:
        raise frames.Spoilt('%s: %s' % (name, fault.args[0]), fault.args[1])
    return pandas.DataFrame(rows, columns=list(COLUMNS)).astype(COLUMNS)


def rest(part):
    """The rest of each query for the rows of some queries, levels and windows: all rows of such a one stand in the same part."""
    import pandas
    by = ['query', 'level', 'w', 'key']
    pairs = part[part['query'] == 'gathered'].drop_duplicates(by + ['value']).assign(value=1)
    sums = pandas.concat([pairs, part[part['query'] != 'gathered']]).groupby(by, as_index=False)['value'].sum()
    sums['value'] = sums['value'].clip(upper=sums['query'].map(WIDTH).astype('int64'))
    return sums[sums['value'] > sums['query'].map(LEAST).astype('int64')]


def dotted(number):
    return '.'.join(str(number >> shift & 255) for shift in (24, 16, 8, 0))


def main():
    words = argparse.ArgumentParser(description=__doc__ + '\n\n' + cluster.PACKAGE, formatter_class=argparse.RawDescriptionHelpFormatter)
    words.add_argument('plan')
    words.add_argument('reports', nargs='+', help='the report frames of each switch')
    cluster.add_options(words)
    given = words.parse_args()
    for name in [given.plan, *given.reports]:
        if not os.path.isfile(name):
            sys.exit('%s: no such file' % name)
    client = cluster.client(given)
    client.run(lambda: sys.path.insert(0, os.path.join(HERE, '..', '..', 'view')))
    import dask.dataframe
    import pandas
    empty = pandas.DataFrame({name: pandas.Series(dtype=kind) for name, kind in COLUMNS.items()})
    parts = [client.submit(read, os.path.abspath(given.plan), os.path.abspath(name), pure=False) for name in given.reports]
    rows = dask.dataframe.from_delayed(parts, meta=empty)
    shuffled = rows.shuffle(on=['query', 'level', 'w'], npartitions=max(2, len(given.reports)), shuffle='tasks')
    try:
        found = shuffled.map_partitions(rest, meta=empty).compute()
    except frames.Spoilt as fault:
        cluster.end(client)
        sys.exit('%s, frame at byte %s' % fault.args)
    for w, query, key, value in sorted((row.w, row.query, row.key, row.value) for row in found.itertuples()):
        print('%d %s %s %d' % (w, query, dotted(key), value))
    cluster.end(client)
    return 0


if __name__ == '__main__':
    sys.exit(main())
