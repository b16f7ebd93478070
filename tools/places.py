#!/usr/bin/env python3
"""Counts the places of docs/DESIGN-PASS.md in the sources: python3 tools/places.py [POINT] [FOLDER], from the top."""
import collections, glob, os, re, sys

FN = re.compile(r'\bfn\s+(\w+)')


def sources(top):
    for path in sorted(glob.glob(os.path.join(top, 'crates/*/src/*.rt'))):
        yield os.path.relpath(path, top), open(path, encoding='utf-8').read()


def code(text):
    return re.sub(r'//[^\n]*', '', text)


def functions(text):
    """Each function's name, line, head and body."""
    text = code(text)
    for m in FN.finditer(text):
        open_at = m.end()
        depth = 0
        i = m.end()
        clause = False
        # the body is the first brace at depth 0 that is not a clause's
        while i < len(text):
            c = text[i]
            if c == '{':
                before = text[m.end():i].rstrip()
                word = re.search(r'(requires|ensures)(\s+\w+)?$', before)
                j = i
                d = 0
                while True:
                    d += text[j] == '{'
                    d -= text[j] == '}'
                    j += 1
                    if d == 0:
                        break
                if word:
                    i = j
                    continue
                yield m.group(1), text.count('\n', 0, m.start()) + 1, text[m.end():i], text[i:j]
                break
            if c == ';':
                break
            i += 1


def greps(top, pattern):
    n = 0
    for path, text in sources(top):
        for k, line in enumerate(code(text).split('\n'), 1):
            if re.search(pattern, line):
                print(f'{path}:{k}: {line.strip()}')
                n += 1
    return n


def point1(top):
    """Enums, numbers of refusals and of calls, functions that give a refusal's number, flags with a value."""
    n = greps(top, r'^\s*(pub(\(crate\))? )?enum ')
    n += greps(top, r'const [A-Z_]+: u32 = \d+;$')
    n += greps(top, r'fn \w*(refusal|_check|first)\(.*(rest|-> u32)')
    n += greps(top, r'^\s*match n \{|\bn == 0x|<= n\)')
    return n


SKELETON = re.compile(r'[A-Za-z_]\w*!?|0x[0-9a-f_]+|\d[\d_.]*|"[^"]*"|\S')
KEPT = set('if else while for loop match return let mut in break continue as fn struct enum impl pub'.split())


def skeleton(body):
    out = []
    for t in SKELETON.findall(body):
        if re.match(r'[A-Za-z_]', t):
            out.append(t if t in KEPT else 'a')
        elif re.match(r'[\d"]', t):
            out.append('0')
        else:
            out.append(t)
    return ' '.join(out)


def point2(top):
    """Functions whose bodies are the same but for names and numbers, of 20 words or more."""
    groups = collections.defaultdict(list)
    for path, text in sources(top):
        for name, line, head, body in functions(text):
            s = skeleton(body)
            if len(s.split()) >= 20:
                groups[s].append(f'{path}:{line} {name}')
    n = 0
    for s, where in groups.items():
        if len(where) > 1:
            print(len(where), '; '.join(where))
            n += len(where)
    return n


def point3(top):
    """Loops but `for`."""
    return greps(top, r'^\s*(while|loop)\b')


def point4(top):
    """Equality, order, copies, conversions and printing by hand, by their names."""
    return greps(top, r'fn (same|eq|cmp|none|plus|number|clone|from_\w+|to_\w+|\w+_words|\w+_of|put_\w+|\w+_line|is_equal)\b')


def point5(top):
    """Three parameters or more that stand together in three functions or more of a crate, and facts in three contracts or more."""
    pairs = collections.defaultdict(set)
    facts = collections.defaultdict(set)
    for path, text in sources(top):
        crate = path.split('/')[1]
        for name, line, head, body in functions(text):
            args = re.search(r'\((.*?)\)', head, re.S)
            ps = re.findall(r'(\w+): ([^,\n]+)', args.group(1) if args else '')
            ps = sorted({f'{a}: {b.strip()}' for a, b in ps})
            for i in range(len(ps)):
                for j in range(i + 1, len(ps)):
                    pairs[crate, ps[i], ps[j]].add(name)
            for clause in re.findall(r'requires\s*\{([^{}]*)\}', head):
                for fact in clause.split('×'):
                    fact = fact.strip().strip('()')
                    facts[crate, fact].add(name)
    n = 0
    for key, names in sorted(pairs.items()):
        if len(names) > 2:
            print(*key, '|', ' '.join(sorted(names)))
            n += 1
    for key, names in sorted(facts.items()):
        if len(names) > 2:
            print('fact', *key, '|', ' '.join(sorted(names)))
            n += 1
    return n


def point6(top):
    """Functions that take a slice with a length or a place beside it."""
    n = 0
    for path, text in sources(top):
        for name, line, head, body in functions(text):
            head = head.split('requires')[0].split('ensures')[0]
            if re.search(r': &(\'a )?(mut )?(\[|Text)', head) and re.search(r'(at|n|count|from|len|end|start|run|i|k|done): (usize|u32)', head):
                print(f'{path}:{line} {name}{" ".join(head.split())}')
                n += 1
    return n


def point7(top):
    """A match on a number that says which step to run."""
    return greps(top, r'^\s*(match n \{|0x[0-9a-f]+( \| 0x[0-9a-f]+)* =>)')


def point8(top):
    """Answers, by crate."""
    n = 0
    for crate in sorted(glob.glob(os.path.join(top, 'crates/*'))):
        files = glob.glob(os.path.join(crate, 'proofs/**/Answers.antt'), recursive=True)
        files += glob.glob(os.path.join(crate, 'proofs/Answers.antt'))
        k = sum(len(re.findall(r'^pub \S+ : goal\.', open(f, encoding='utf-8').read(), re.M)) for f in files)
        lines = sum(open(f, encoding='utf-8').read().count('\n') for f in glob.glob(os.path.join(crate, 'proofs/**/*.antt'), recursive=True))
        print(f'{os.path.basename(crate)}: {len(files)} files, {k} answers, {lines} lines of proofs')
        n += k
    return n


POINTS = [point1, point2, point3, point4, point5, point6, point7, point8]

if __name__ == '__main__':
    top = sys.argv[2] if len(sys.argv) > 2 else '.'
    which = [int(sys.argv[1])] if len(sys.argv) > 1 and sys.argv[1] != 'all' else range(1, 9)
    for k in which:
        print(f'-- point {k}: {POINTS[k - 1].__doc__}')
        print(f'-- {POINTS[k - 1](top)} found')
