"""Puts the packed matches and the files of the page into one HTML file."""
import base64
import html
import json
import os
import zlib

HERE = os.path.dirname(os.path.realpath(__file__))
SCRIPTS = ('unpack.js', 'compare.js', 'bodies.js', 'ground.js', 'drawing.js', 'chart.js', 'signs.js', 'lists.js', 'input.js',
           'page.js')


def content(name):
    with open(f'{HERE}/{name}', encoding='utf-8') as it:
        return it.read()


def safe_json(value):
    """JSON that can stand in a script of a page, whatever names the rules have."""
    return json.dumps(value, ensure_ascii=True, separators=(',', ':')).replace('<', '\\u003c').replace('&', '\\u0026')


def data(name, packed):
    return f'<script type="text/plain" id="{name}">{base64.b64encode(packed).decode()}</script>'


def page(title, matches, orders, equal):
    """The page's bytes. `orders` has the lines of orders of each match, `equal` by turns how many worlds are equal and how
    many differ."""
    parts, headers = [], []
    for at, (match, lines) in enumerate(zip(matches, orders)):
        heads, changes = match.packed()
        headers.append(match.header())
        for name, packed in (('heads', heads), ('changes', changes), ('orders', zlib.compress(lines.encode(), 9))):
            parts.append(data(f'{name}-{at}', packed))
    about = safe_json({'title': title, 'matches': headers, 'equal': equal})
    parts.append(f'<script type="application/json" id="about">{about}</script>')
    script = "(() => {\n'use strict';\n" + '\n'.join(map(content, SCRIPTS)) + '\n})();\n'
    filled = {'title': html.escape(title), 'style': content('page.css'), 'data': '\n'.join(parts), 'script': script}
    text = content('page.html')
    for name, value in filled.items():
        text = text.replace(f'<!-- {name} -->', value, 1)
    return text.encode()
