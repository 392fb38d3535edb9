#!/usr/bin/env python3
"""pack.py OUT --sentences FILE.js --table FILE.tsv [--module FILE.wasm] [--verdict LINE] [--examples FOLDER ..]

Makes the page in the folder OUT: index.html, and in OUT/parts page.css, page.js and engine.js. It works from a disk and from any
web server.

A page from a disk may import no module and start no worker from a file. So the modules of this folder are put one after the other
into a classic script, each in a function of its own; the worker's script and the WebAssembly module travel as texts in engine.js.
Modules import by `import { a, b } from './file.js';` on one line, and export functions, classes and constants by the word `export`."""
import argparse
import base64
import gzip
import json
import os
import re
import shutil

HERE = os.path.dirname(os.path.abspath(__file__))
IMPORT = re.compile(r"^import \{ ([^}]*) \} from '\./([\w./-]+)\.js';$", re.M)
EXPORT = re.compile(r'^export (async function|function|class|const) (\w+)', re.M)


def read(path):
    with open(path, encoding='utf-8', newline='') as file:
        return file.read()


def name_of(module):
    return 'module_' + module.replace('-', '_')


def modules_from(entry, places, order):
    """The modules that one needs, each after those that it needs."""
    if entry in order:
        return order
    source = read(places.get(entry, os.path.join(HERE, entry + '.js')))
    for found in IMPORT.finditer(source):
        modules_from(found.group(2), places, order)
    order[entry] = source
    return order


def packed(entry, places):
    pieces = ["'use strict';\n"]
    for module, source in modules_from(entry, places, {}).items():
        exported = ', '.join(found.group(2) for found in EXPORT.finditer(source))
        body = IMPORT.sub(lambda found: f'const {{ {found.group(1)} }} = {name_of(found.group(2))};', source)
        body = EXPORT.sub(r'\1 \2', body)
        if re.search(r'^(import|export)\b', body, re.M):
            raise SystemExit(f'pack.py: {module}.js imports or exports in a way that is not packed')
        pieces.append(f'const {name_of(module)} = (() => {{\n{body}return {{ {exported} }};\n}})();\n')
    return ''.join(pieces)


def examples_in(folders):
    """Each NAME.story is a title, a line with `---`, and the story; NAME.pas and NAME.input stand in one of the folders."""
    def find(name):
        return next((read(os.path.join(folder, name)) for folder in folders if os.path.exists(os.path.join(folder, name))), None)
    examples = []
    for story in sorted(os.listdir(folders[0])):
        if story.endswith('.story'):
            name = re.sub(r'^\d+-|\.story$', '', story)
            title, text = read(os.path.join(folders[0], story)).split('\n---\n')
            source = find(name + '.pas')
            if source is None:
                raise SystemExit(f'pack.py: there is no {name}.pas for {story}')
            examples.append({'name': name, 'title': title, 'story': text.strip(), 'source': source, 'input': find(name + '.input') or ''})
    return examples


def main():
    words = argparse.ArgumentParser()
    words.add_argument('out')
    words.add_argument('--module')
    words.add_argument('--verdict', default='')
    words.add_argument('--sentences', required=True)
    words.add_argument('--table', required=True)
    words.add_argument('--examples', nargs='*', default=[])
    given = words.parse_args()
    places = {'refusals': given.sentences}
    module = b''
    if given.module:
        with open(given.module, 'rb') as file:
            module = gzip.compress(file.read(), 9, mtime=0)
    carried = {
        'verdict': given.verdict,
        'sentences': read(given.table),
        'examples': examples_in([os.path.join(HERE, 'examples')] + given.examples),
        'worker': packed('worker', places),
        'module': base64.b64encode(module).decode('ascii'),
    }
    # Whoever looks into the folder sees one thing to open.
    parts = os.path.join(given.out, 'parts')
    os.makedirs(parts, exist_ok=True)
    shutil.copyfile(os.path.join(HERE, 'index.html'), os.path.join(given.out, 'index.html'))
    shutil.copyfile(os.path.join(HERE, 'page.css'), os.path.join(parts, 'page.css'))
    # A text in a script may not close the script, nor open a comment of HTML.
    text = json.dumps(carried, ensure_ascii=True).replace('<', '\\u003c')
    for name, script in (('engine.js', f"'use strict';\nconst PASASK = {text};\n"), ('page.js', packed('page', places))):
        with open(os.path.join(parts, name), 'w', encoding='utf-8', newline='') as file:
            file.write(script)


main()
