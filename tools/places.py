#!/usr/bin/env python3
"""Counts the places of docs/DESIGN-PASS.md in the src/, specs/ and proofs/ of a commit, or of the files as they stand:

    python3 tools/places.py [-l] [COMMIT]

-l lists each place. A place is what a pattern below finds; the page says which of them were read as none. A kind of place is named by the
number of its point and a letter."""
import re
import subprocess
import sys
from collections import defaultdict

KINDS = {
    '1a': 'an own enum of the shape of Option or Result, or of an order',
    '1b': 'a flag or a code with values beside it',
    '1c': 'a number for a refusal',
    '1d': '0 for none: what a function answers, or a field',
    '1e': 'a number for several things packed: a row of a table',
    '1f': 'a type that derives no equality',
    '2a': 'two functions or more whose texts differ in a type, a number, a constant or the names that they call',
    '2b': 'two functions with one question, of a line and of its noted ends or of a key and of its tag',
    '3a': 'a loop that counts an index by hand',
    '3b': 'another while or loop',
    '4a': 'copying or filling by hand',
    '4b': 'a ladder of early answers',
    '4c': 'equality or order by hand',
    '4d': 'a match whose arms are true and false',
    '4e': 'a conversion by `as`, or by a function',
    '4f': 'digits printed by hand',
    '5a': 'holding and file, which travel together',
    '5b': 'text and ends, which travel together',
    '5c': 's and at, which travel together',
    '5d': 'a fact in the contracts of three or more functions',
    '6a': 'parallel arrays of the records in force',
    '6b': 'a slice with a count beside it',
    '6c': 'a sorted list searched by hand',
    '7': 'a switch on a kind or change',
    '8a': 'an answer of a proof',
    '8b': 'an answer that only names a rule set',
    '8c': 'a file of answers or invariants',
}

# One question, asked of a line and of its noted ends, or of a key and of its tag.
TWINS = [('passes', 'passes_noted'), ('number_at', 'number_noted'), ('key_at', 'key_noted'), ('references', 'tags_noted'), ('known', 'known_noted'),
         ('change_of', 'change_noted'), ('field', 'noted_field'), ('place', 'place_tagged'), ('stands', 'stands_tagged'), ('note_one', 'note_tagged'),
         ('note', 'note_tags'), ('find_line', 'line_in_force'), ('finding_of', 'line_found')]


def files(commit):
    if commit:
        names = subprocess.run(['git', 'ls-tree', '-r', '--name-only', commit, 'crates'], capture_output=True, text=True, check=True).stdout.split()
        read = lambda name: subprocess.run(['git', 'show', commit + ':' + name], capture_output=True, text=True, check=True).stdout
    else:
        names = subprocess.run(['git', 'ls-files', 'crates'], capture_output=True, text=True, check=True).stdout.split()
        read = lambda name: open(name, encoding='utf-8').read()
    return names, read


def functions(text):
    """Each function of a file: its comment, name, head (up to the body) and body."""
    lines = text.split('\n')
    for i, line in enumerate(lines):
        m = re.match(r'([ ]*)(?:pub )?(?:final )?(?:extern "C" )?fn (\w+)', line)
        if not m:
            continue
        up = i
        while up and re.match(r'[ ]*(//|#\[)', lines[up - 1]):
            up -= 1
        start = i
        while start < len(lines) and not (lines[start].endswith(' {') or lines[start] == m.group(1) + '{'):
            start += 1
        end = start
        while end < len(lines) and lines[end] != m.group(1) + '}':
            end += 1
        yield '\n'.join(lines[up:i]), m.group(2), '\n'.join(lines[i:start + 1]), '\n'.join(lines[start + 1:end])


def shape(head, body):
    """A function's text with its own name, types, numbers, constants and the functions that it calls made alike."""
    text = re.sub(r'//.*', '', re.split(r'\n\s+(?:requires|ensures)', head)[0] + ' { ' + body)
    tokens = re.findall(r"b'(?:\\.|[^'])+'|b?\"(?:\\.|[^\"])*\"|\w+|[^\w\s]", text)
    out, seen = [], {}
    for i, t in enumerate(tokens):
        following = tokens[i + 1] if i + 1 < len(tokens) else ''
        if re.match(r"b?['\"]|\d", t):
            out.append('#')
        elif re.match(r'[A-Z]|[ui](8|16|32|64|size)$', t):
            out.append('T')
        elif t in ('fn', 'pub', 'let', 'mut', 'if', 'else', 'return', 'match', 'for', 'in', 'while', 'loop', 'as', 'true', 'false', 'bool', 'self'):
            out.append(t)
        elif re.match(r'[a-z_]', t):
            out.append('f' if following == '(' else seen.setdefault(t, 'v%d' % len(seen)))
        else:
            out.append(t)
    return ' '.join(x for x in out if x != 'pub'), len(tokens)


def places(commit):
    names, read = files(commit)
    found = defaultdict(list)
    shapes, facts, named = defaultdict(list), defaultdict(list), defaultdict(list)
    for name in sorted(names):
        if re.match(r'crates/\w+/src/.*\.rt$', name):
            text = read(name)
            crate = name.split('/')[1]
            at_head = re.sub(r'\s+', ' ', re.match(r'(?://.*\n)*', text).group(0).replace('//', ''))
            for m in re.finditer(r'((?:^//[^\n]*\n)*)((?:^#\[[^\n]*\n)*)^(?:pub )?(enum|struct) (\w+)(?:<[^\n]*?>)?(?: \{\n(.*?)^\}|[^\n]*)', text, re.M | re.S):
                comment, derives, what, type_name, inner = m.groups()
                where = f'{name}: {type_name}'
                inner = inner or ''
                variants = re.findall(r'^    (\w+)(\([^\n]*\))?,', inner, re.M)
                if what == 'enum' and (len(variants) == 2 and any(p for _, p in variants) or {v for v, _ in variants} == {'Before', 'Same', 'After'}
                                       or len(variants) == 3 and sum(1 for _, p in variants if p) == 1):
                    found['1a'].append(where)
                fields = re.findall(r'^    pub (\w+): ([^,\n]+(?:; \w+\])?),', inner, re.M)
                flags = [f for f, t in fields if t == 'bool' or f == 'code' and t == 'u64' or f == 'line' and len(fields) == 2 or t == 'Answer' and f == 'answer']
                if what == 'struct' and flags and len(fields) > 1:
                    found['1b'].append(f'{where}.{flags[0]}')
                flat = re.sub(r'\s+', ' ', comment.replace('//', ''))
                if what == 'struct' and re.search(r'\b0 is none|\bor 0\b', flat):
                    found['1d'] += [f'{where}.{f}' for f in {'Layout': ['start', 'end', 'key', 'by'], 'Kept': ['noted']}.get(type_name, []) if f in dict(fields)]
                if 'Clone' in derives and 'PartialEq' not in derives:
                    found['1f'].append(where)
            for m in re.finditer(r'pub const FIELDS: \[u32; \d+\]', text):
                owner = re.findall(r'impl (\w+) \{', text[:m.start()])[-1]
                found['1e'].append(f'{name}: {owner}::FIELDS')
            for m in re.finditer(r'^(?:pub )?const (\w+): u64 = \d+;', text, re.M):
                if name.endswith('answers/src/codes.rt'):
                    found['1c'].append(f'{name}: {m.group(1)}')
            for comment, fn, head, body in functions(text):
                where = f'{name}: {fn}'
                plain = re.sub(r'//.*', '', body)
                flat = re.sub(r'\s+', ' ', comment.replace('//', ''))
                args = re.split(r'\n\s+(?:requires|ensures)\b', head)[0]
                flat_args = re.sub(r'\s+', ' ', args)
                answers_number = re.search(r'-> (u64|u32|usize)\b', flat_args)
                if answers_number and (re.search(r'\b(or 0\b|0 where|0 for none|0 for a longer|else 0\b)', flat) or 'or 0 where' in at_head and text.count('return 0;') and fn.startswith('past_')):
                    found['1d'].append(where)
                bools = re.findall(r'(\w+): bool', args)
                if {'held', 'sent'} <= set(bools) or {'readable', 'infile'} & set(bools):
                    found['1b'].append(where + '(' + ', '.join(bools) + ')')
                form, size = shape(head, body)
                if 11 < size and 'fn main' not in head:
                    shapes[form].append(where)
                named[fn].append(where)
                for cond in re.findall(r'\b(while [^{]+|loop) \{', plain):
                    counted = [v for v in re.findall(r'\b([a-z_]+)\b', cond) if re.search(r'\b' + v + r' [+-]= (1|8)\b|\b' + v + r' = (next|\w+ [+-] 1)\b', plain)]
                    halves = re.search(r'low < high', cond)
                    counted = counted or cond in ('while i < t.len()', 'while i < s.len()') and 'line_end' in fn
                    found['6c' if halves else '3a' if counted and 'at < ' not in cond and 'let ' not in cond else '3b'].append(f'{where}: {cond.strip()}')
                ladder = re.findall(r'if [^{]+ \{\n\s+return (?:false|true);\n\s+\}', plain)
                if ladder:
                    found['4b'].append(f'{where}: {len(ladder)}')
                if re.search(r'while .*\{\n(.*\n)*?\s+\w+\[[^\]]+\] = (\w+\[[^\]]+\]|0);', plain):
                    found['4a'].append(where)
                if re.search(r'\bif (\w+)\[i\] [!=<]+ (\w+)\[i\]|\ba\.\w+ != b\.\w+|\bOrder::Before => false|\bis_same\(|if x < y \{', plain) or fn in ('is_same', 'begins') and 'while' in plain:
                    found['4c'].append(where)
                arms = re.findall(r'=> (\w+)', plain)
                if arms and 'true' in arms and set(arms) <= {'true', 'false'}:
                    found['4d'].append(where)
                casts = len(re.findall(r'\bas (?:u64|u32|u16|u8|usize)\b', plain))
                if casts:
                    found['4e'] += [f'{where}: as'] * casts
                if fn in ('wide', 'joined', 'digit_above', 'minus', 'looseness'):
                    found['4e'].append(f'{where}: by hand')
                if re.search(r'% 10\b', plain):
                    found['4f'].append(where)
                if 'holding: &[u8]' in flat_args and 'file: &[u8]' in flat_args:
                    found['5a'].append(where)
                if re.search(r'(text|line): &\[u8\], (.*, )?ends: &(mut )?\[usize\]', flat_args):
                    found['5b'].append(where)
                if re.search(r'\bs: &\[u8\], at: usize', flat_args):
                    found['5c'].append(where)
                for fact in set(re.findall(r'(?<![.\w])([A-Z]\w+) (?=[a-z(\[])', ' '.join(re.findall(r'requires[^{]*\{(.*)\}', head)))):
                    facts[fact].append(where)
                if re.search(r'(places|starts|tags): &(mut )?\[u64\].*(tags|counts|count)\b', flat_args):
                    found['6a'].append(where)
                if re.search(r': &(mut )?\[\w+\].*\bcount: usize', flat_args):
                    found['6b'].append(where)
                if re.search(r'match (change|kind|self\.change) \{|match \(\w+, kind\) \{', plain):
                    found['7'].append(where)
        elif re.match(r'crates/\w+/proofs/.*(Answers|Invariants)\.antt$', name):
            found['8c'].append(name)
            for line in read(name).splitlines():
                if name.endswith('Answers.antt') and re.match(r'[\w-]+ c = ', line):
                    found['8a'].append(name)
                    if re.match(r'[\w-]+ c = search \w+$', line):
                        found['8b'].append(name)
    for form, where in shapes.items():
        if 1 < len(where):
            found['2a'].append(' = '.join(where))
    for one, other in TWINS:
        if named[one] and named[other]:
            found['2b'].append(named[one][0] + ', ' + named[other][0].split(': ')[1])
    for fact, where in sorted(facts.items()):
        if 2 < len(where):
            found['5d'].append(f'{fact}: {len(where)} functions')
    return found


def main():
    args = [a for a in sys.argv[1:] if a != '-l']
    found = places(args[0] if args else None)
    for kind, what in KINDS.items():
        print(f'{kind} {what}: {len(found[kind])}')
        if '-l' in sys.argv and not kind.startswith('8'):
            for where in found[kind]:
                print('    ' + where)


main()
