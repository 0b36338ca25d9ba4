"""What the pictures share: their command line, the package that draws them, colours, and the file that is written."""

import argparse
import colorsys
import io
import os
import re
import sys

PACKAGE = 'Needs matplotlib: on Debian `apt-get install python3-matplotlib`, and the distribution\'s own /usr/bin/python3.'
COLOURS = ['#3b6fb6', '#d9822b', '#3d9157', '#b5403f', '#7d5ba6', '#8a6a4f', '#c4649f', '#5f7f8c']


def command_line(description, package=PACKAGE):
    """The parser of a command, with the picture that it writes."""
    words = argparse.ArgumentParser(description=description + '\n\n' + package, formatter_class=argparse.RawDescriptionHelpFormatter)
    words.add_argument('-o', '--output', metavar='PICTURE', required=True, help='the picture to write: .svg or .png')
    return words


def form_of(name):
    """The form that a picture's name asks for, in a folder that is there."""
    form = os.path.splitext(name)[1].lower().lstrip('.')
    if form not in ('svg', 'png'):
        sys.exit('%s: a picture ends in .svg or .png' % name)
    if not os.path.isdir(os.path.dirname(name) or '.'):
        sys.exit('%s: no such folder' % os.path.dirname(name))
    return form


def drawing():
    """The module that draws, made ready to write files that are the same each time."""
    try:
        import matplotlib
    except ImportError:
        sys.exit(PACKAGE)
    matplotlib.use('Agg')
    matplotlib.rcParams.update({'font.size': 8, 'font.sans-serif': ['DejaVu Sans'], 'svg.fonttype': 'none', 'svg.hashsalt': 'sonata', 'axes.spines.top': False, 'axes.spines.right': False})
    from matplotlib import pyplot
    return pyplot


def rounded(tag):
    """A tag with the numbers of its attributes to a tenth."""
    return re.sub(r'-?\d+\.\d{2,}', lambda found: ('%.1f' % float(found.group())).rstrip('0').rstrip('.'), tag)


def shortened(svg):
    """The same picture in fewer bytes: numbers of attributes to a tenth, and neither comments, metadata, names of groups nor blanks between parts. What
    stands between tags is words, addresses among them, and stays as it is."""
    svg = re.sub(r'<!--.*?-->|<!DOCTYPE.*?>|<metadata>.*?</metadata>', '', svg, flags=re.S)
    svg = re.sub(r'<[^<>]*>', lambda found: rounded(found.group()), svg)
    svg = re.sub(r'<g id="(?!figure)[^"]*">', '<g>', svg)
    svg = re.sub(r' *\n *', '\n', svg)
    svg = re.sub(r'\n([LQCz"])', r'\1', svg)
    svg = re.sub(r'<g>\n(<(?:path|text)[^>]*>(?:[^<]*</text>)?)\n</g>', r'\1', svg)
    return re.sub(r'\n+', '\n', svg)


def write(data, name):
    """The bytes of a picture, in its file."""
    try:
        with open(name, 'wb') as file:
            file.write(data)
    except OSError as fault:
        sys.exit('%s: %s' % (name, fault.strerror))


def write_svg(svg, name):
    write(shortened(svg).encode(), name)


def save(figure, name):
    drawn = io.BytesIO()
    if form_of(name) == 'png':
        figure.savefig(drawn, format='png', dpi=110, bbox_inches='tight')
        write(drawn.getvalue(), name)
        return
    figure.savefig(drawn, format='svg', bbox_inches='tight', metadata={'Date': None})
    write_svg(drawn.getvalue().decode(), name)


def colour(number):
    """The colour of a query."""
    return COLOURS[number % len(COLOURS)]


def shade(number, place, count):
    """The colour of a query at one of the levels of its path: the coarsest is the lightest."""
    red, green, blue = (int(colour(number)[i:i + 2], 16) / 255 for i in (1, 3, 5))
    hue, light, full = colorsys.rgb_to_hls(red, green, blue)
    share = (count - 1 - place) / max(1, count)
    return colorsys.hls_to_rgb(hue, light + (0.93 - light) * share, full)


def whole_ticks(axis):
    """Ticks at whole numbers alone."""
    from matplotlib.ticker import MaxNLocator
    axis.set_major_locator(MaxNLocator(integer=True, nbins='auto'))
