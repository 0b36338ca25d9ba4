"""Looks for the keys of answers in the picture that view/answers.py drew of them, and for stays in that of view/stays.py: each must stand there as it is."""

import collections
import csv
import os
import re
import shlex
import sys
import xml.etree.ElementTree

HERE = os.path.dirname(os.path.abspath(__file__))
sys.path.insert(0, os.path.join(HERE, '..', 'view'))
import printed  # noqa: E402
import stays  # noqa: E402
import texts  # noqa: E402

COMMAND = re.compile(r'^/usr/bin/python3 \S*view/answers\.py (.*)$', re.M)
STAYS = re.compile(r'^python3 \S*view/stays\.py (.*)$', re.M)
LINK = re.compile(r'\]\((pictures/\S*(?:answers|late)\.svg)\)')
SVG = '{http://www.w3.org/2000/svg}'


def keys_of(answers, queries):
    """The keys at each query's finest level that was answered: the columns that its join or last reduce names, else those before the number."""
    rows = collections.defaultdict(lambda: collections.defaultdict(set))
    places = printed.places_of(queries)
    with open(answers, newline='') as file:
        for record in list(csv.reader(file))[1:]:
            key, _ = printed.keyed([printed.short(column) for column in record[3:] if column], places[record[1]])
            rows[record[1]][int(record[2])].add(key)
    return {key for levels in rows.values() for key in levels[max(levels)]}


def words_of(picture, kind='text'):
    """The words of a picture, each as it is read; or the titles of its parts."""
    root = xml.etree.ElementTree.parse(picture).getroot()
    return {''.join(part.itertext()).strip() for part in root.iter(SVG + kind)}


def missing(commands, folder, pictures):
    """The keys that aren't in a picture, for each command that draws answers from CSV: in the picture that it drew in this folder, and in the one of the
    document whose name ends so."""
    found = []
    for words in (shlex.split(line) for line in COMMAND.findall(commands)):
        if not words[0].endswith('.csv') or '--queries' not in words:
            continue
        drawn = words[words.index('-o') + 1]
        queries = texts.read_queries(os.path.join(folder, words[words.index('--queries') + 1]))
        keys = keys_of(os.path.join(folder, words[0]), queries)
        for picture in [os.path.join(folder, drawn)] + [name for name in pictures if name.endswith(drawn)]:
            found += ['%s in %s' % (key, picture) for key in sorted(keys - words_of(picture))]
    return found


def missing_stays(commands, folder, pictures):
    """The addresses and the lines of stays that aren't in a picture, for each command that draws what `detect` printed, where nothing of it is folded."""
    found = []
    for words in (shlex.split(line) for line in STAYS.findall(commands)):
        drawn = words[words.index('-o') + 1]
        with open(os.path.join(folder, words[0])) as file:
            lines = [printed.short(line.rstrip('\n')) for line in file if stays.STAY.match(line)]
        for picture in [os.path.join(folder, drawn)] + [name for name in pictures if name.endswith(drawn)]:
            named, titled = words_of(picture), words_of(picture, 'title')
            found += ['%s in %s' % (line, picture) for line in lines if line not in titled or line.split()[0] not in named]
    return found
