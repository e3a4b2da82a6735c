#!/usr/bin/env python3
"""Counts in src/ what docs/DESIGN-PASS.md counts: python3 tools/design.py [FOLDER]
FOLDER is the top of a checkout (this one where none is given). With -v each place is printed."""
import difflib
import glob
import os
import re
import sys

verbose = '-v' in sys.argv
rest = [a for a in sys.argv[1:] if a != '-v']
top = rest[0] if rest else os.path.join(os.path.dirname(os.path.abspath(__file__)), '..')
files = sorted(glob.glob(os.path.join(top, 'crates/*/src/*.rt')))
texts = {os.path.relpath(f, top): open(f).read() for f in files}


def functions(text):
    """name, line, parameters, contract and body of each function"""
    for m in re.finditer(r'^( *)(?:pub(?:\(crate\))? )?(?:extern "C" )?fn (\w+)', text, re.M):
        start = m.end()
        i = text.index('(', start)
        depth, j = 0, i
        while True:
            depth += {'(': 1, ')': -1}.get(text[j], 0)
            j += 1
            if depth == 0:
                break
        params = text[i + 1:j - 1]
        end = re.compile(r'^' + m.group(1) + r'\}', re.M).search(text, j)
        whole = text[j:end.end()] if end else text[j:]
        body = whole[whole.index('\n' + m.group(1) + '{') :] if '\n' + m.group(1) + '{' in whole else whole[whole.index('{'):]
        yield m.group(2), text[:m.start()].count('\n') + 1, params, whole[:len(whole) - len(body)], body


found = {}


def note(point, what, place):
    found.setdefault((point, what), []).append(place)


shapes = []
for f, text in texts.items():
    for m in re.finditer(r'^ +(?:pub )?(\w+): (?:bool|usize),$', text, re.M):
        line = text[:m.start()].count('\n') + 1
        inside = text[:m.start()].rfind('struct ') > text[:m.start()].rfind('fn ')
        if inside and m.group(1) in ('number', 'ok', 'found', 'same', 'in_number', 'in_word', 'line', 'order'):
            note(1, 'struct fields that are a flag or a code', f'{f}:{line} {m.group(1)}')
    for m in re.finditer(r'\bnumber(?::| =) \d+[,;]|refused\(\d+,', text):
        note(1, 'refusals written as numbers', f'{f}:{text[:m.start()].count(chr(10)) + 1}')
    for m in re.finditer(r'(\w+)\.number != 0|\.number == 0|!\w+\.ok\b', text):
        note(1, 'tests of such a number or flag', f'{f}:{text[:m.start()].count(chr(10)) + 1}')
    for m in re.finditer(r'while (\w+) < ', text):
        end = text.find('\n    }', m.end())
        if re.search(r'\b' + m.group(1) + r' \+= 1;|\b' + m.group(1) + r' = next;', text[m.end():end + 1]):
            note(3, 'loops that count an index by hand', f'{f}:{text[:m.start()].count(chr(10)) + 1}')
    for m in re.finditer(r'\bwhile\b|\bloop \{', text):
        if text[text.rfind('\n', 0, m.start()) + 1:m.start()].lstrip().startswith('//'):
            continue
        note(3, 'of all `while` and `loop`', f'{f}:{text[:m.start()].count(chr(10)) + 1}')
    for m in re.finditer(r'Accepted n firsts\.now', text):
        note(5, 'contracts that state that the plant is accepted', f'{f}:{text[:m.start()].count(chr(10)) + 1}')
    for m in re.finditer(r'rate_ok (?:rate\.)?p (?:rate\.)?q ≡ true', text):
        note(5, 'contracts that state that the rate is in range', f'{f}:{text[:m.start()].count(chr(10)) + 1}')
    for m in re.finditer(r'requires (?:lasts|priors|laid) ', text):
        note(5, 'contracts that state the index of the lines', f'{f}:{text[:m.start()].count(chr(10)) + 1}')
    for m in re.finditer(r'if row::starts\(', text):
        note(7, 'tests in a switch on the kind of a case', f'{f}:{text[:m.start()].count(chr(10)) + 1}')
    for name, line, params, contract, body in functions(text):
        n = len([p for p in re.split(r',\s*(?![^<(]*[>)])', params) if p.strip()])
        if n >= 7:
            note(5, 'functions with seven or more parameters', f'{f}:{line} {name} ({n})')
        if re.search(r'firsts: &(mut )?\[usize', params) and re.search(r'seconds: &(mut )?\[usize', params):
            note(6, 'functions over parallel lists of a plant or a network', f'{f}:{line} {name}')
        if re.search(r'low_p: &', params):
            note(6, 'functions over parallel lists of low rates', f'{f}:{line} {name}')
        if re.search(r'\b(node|via|from): &', params):
            note(6, 'functions over the parallel lists of the queue', f'{f}:{line} {name}')
        if name in ('same', 'fill', 'copy_marks', 'open_lines', 'open_drains', 'starts', 'goes_on', 'at_most', 'wide', 'flag', 'taken', 'or_one',
                    'earlier', 'mark_of', 'find', 'digit', 'put', 'tick', 'part', 'head', 'clear_owners'):
            note(4, 'functions that compare, copy, convert or search by hand', f'{f}:{line} {name}')
        if body.count('\n') >= 6:
            shape = re.sub(r'"[^"]*"', 'S', body)
            shape = re.sub(r'\b\d+\b', 'N', shape)
            shape = re.sub(r'\b[a-z_]\w*\b', 'x', shape)
            shape = re.sub(r'\b[A-Z]\w*\b', 'T', shape)
            shapes.append((f'{f}:{line} {name}', re.findall(r'\w+|[^\w\s]', shape)))
for place, shape in shapes:
    for other, twin in shapes:
        m = difflib.SequenceMatcher(None, shape, twin, False)
        if place != other and m.quick_ratio() >= 0.93 and m.ratio() >= 0.93:
            note(2, 'functions with a twin: one shape to 93 in 100, but for names, numbers and types', f'{place} ~ {other}')
            break
words = {}
laws = {}
pages = ''.join(open(f).read() for f in glob.glob(os.path.join(top, 'docs/*.md')) if not f.endswith(('PORT.md', 'DESIGN-PASS.md')))
for f in sorted(glob.glob(os.path.join(top, 'crates/*/proofs/**/*.antt'), recursive=True) + glob.glob(os.path.join(top, 'crates/*/specs/*.antt'))):
    text = re.sub(r'--.*', '', open(f).read())
    name = os.path.relpath(f, top)
    for w in re.findall(r"[^\s(){},;λ.]+", text):
        words[w] = words.get(w, 0) + 1
    if f.endswith('/Answers.antt'):
        note(8, 'files of answers', name)
        for m in re.finditer(r'^pub \S+ : goal\.', text, re.M):
            note(8, 'answers', name)
    elif not f.endswith('/Invariants.antt') and '/proofs/' in name:
        for m in re.finditer(r'^ *(?:abbrev |unfoldable )?(?:pub )?([^\s(){}]+) :(?= )', text, re.M):
            laws.setdefault(m.group(1), (name, text.count(m.group(1))))
for law, (f, here) in sorted(laws.items(), key=lambda x: x[1]):
    # its signature and at least one equation name it; a third time is a use
    own = len(re.findall(r'^ *' + re.escape(law) + r'(?: .*)?(?: =| :)', open(os.path.join(top, f)).read(), re.M))
    pub = len(re.findall(r'^ *(?:abbrev |unfoldable )?pub ' + re.escape(law) + r' :', open(os.path.join(top, f)).read(), re.M))
    if words[law] <= own + pub and law not in pages:
        note(8, 'lemmas that no proof cites and no page names', f'{f} {law}')
for (point, what), places in sorted(found.items()):
    print(f'{point}  {len(places):4}  {what}')
    if verbose:
        for p in places:
            print('        ', p)
