#!/usr/bin/env python3
# Prints how many functions the crates' src/ has, how many of them have six parameters or more, and the groups of functions whose bodies are
# alike once names and numbers are put aside: tools/shapes.py, at the top of the repository.
import collections
import glob
import re

WORDS = {'if', 'while', 'return', 'let', 'mut', 'for', 'match', 'else', 'in'}
FUNCTION = re.compile(r'\n( *)((?:pub )?(?:extern "C" )?fn (\w+)[^\n]*(?:\n(?!\1\})[^\n]*)*\n\1\})')


def parameters(text):
    depth = 0
    for at, c in enumerate(text):
        depth += (c in '([<') - (c in ')]' or (c == '>' and text[at - 1] != '-'))
        if at and depth == 0:
            break
    return [p for p in re.split(r',(?![^\[<]*[\]>])', text[1:at]) if p.strip()]


def shape(text):
    text = re.sub(r'\b[A-Za-z_]\w*(::\w+)*', lambda m: m[0] if m[0] in WORDS else 'x', text)
    return re.sub(r'\s+', ' ', re.sub(r'\b\d+\b', '0', text))


functions, wide, shapes = 0, 0, collections.defaultdict(list)
for name in sorted(glob.glob('crates/*/src/*.rt')):
    code = re.sub(r'//[^\n]*', '', open(name).read())
    for found in FUNCTION.finditer(code):
        text = found[2]
        functions += 1
        wide += len(parameters(text[text.index('('):])) >= 6
        body = re.split(r'\n *\{\n', text, maxsplit=1)[-1]
        if len(shape(body)) > 40:
            shapes[shape(body)].append(name.split('/')[1] + '::' + name.split('/')[-1][:-3] + '::' + found[3])
groups = [names for names in shapes.values() if len(names) > 1]
print(functions, 'functions;', sum(map(len, groups)), 'in', len(groups), 'groups of one shape;', wide, 'with six parameters or more')
for names in groups:
    print(' ', ', '.join(names))
