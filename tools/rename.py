#!/usr/bin/env python3
"""Sets the names of the code in the words of tools/rename_rules.py, once, over a whole checkout.

    tools/rename.py [FOLDER]        (a checkout in the old names; the current folder by default)

Words are renamed as whole identifiers, in code and in the parts of proof names that come from code; texts that a program
prints stay as they are. Comments are put into the new words by a table of their own. Files and folders follow their names.
What a pass leaves is checked and read by hand; a patch against the old names is brought over by applying it first.
"""
import os
import re
import sys

sys.path.insert(0, os.path.dirname(os.path.abspath(__file__)))
import rename_rules as R  # noqa: E402

TOKEN = re.compile(r"""
    (?P<comment>//[^\n]*|--(?=[ \n])[^\n]*)
  | (?P<string>b?"(?:\\.|[^"\\])*")
  | (?P<char>b?'(?:\\.|[^'\\\n])')
  | (?P<name>[A-Za-z_][A-Za-z0-9_']*\??)
""", re.X)


def crate_of(path):
    parts = path.split(os.sep)
    return parts[1] if parts[0] == 'crates' and len(parts) > 1 else ''


def lookup(maps, name, dotted):
    for m in maps:
        if dotted and '.' + name in m:
            return m['.' + name]
        if name in m:
            return m[name]
    return None


def by_parts(name):
    """A name made of words, as `match_drops`, follows the words that it is made of."""
    parts = name.split('_')
    if len(parts) == 1:
        return None
    mapped = [R.PARTS.get(p, p) for p in parts]
    return '_'.join(mapped) if mapped != parts else None


def imported(text, module_rules):
    """The definitions that a file imports and that are renamed where they are defined."""
    found = {}
    for module, names in re.findall(r'use (Rattle\.[\w.]+)\.\{([^}]*)\}', text):
        rules = module_rules.get(module)
        if rules:
            for item in names.split(','):
                name = item.strip().split(' as ')[0].strip()
                if name in rules:
                    found[name] = rules[name]
    return found


def module_of(path):
    """The module whose definitions a file of specs/ or proofs/ holds, in the old names."""
    m = re.match(r'crates/(\w+)/(specs|proofs)/(\w+)\.antt$', path)
    return 'Rattle.%s.%s.%s' % m.groups() if m else None


def rename_paths(text, crate):
    for c, mods in R.SPEC_FILES.items():
        for old, new in mods.items():
            text = re.sub(r'\bRattle\.%s\.specs\.%s\b' % (c, old), 'Rattle.%s.specs.%s' % (c, new), text)
            if c == crate:
                text = re.sub(r'\bcrate::specs::%s\b' % old, 'crate::specs::%s' % new, text)
    for c, mods in R.PROOF_FILES.items():
        for old, new in mods.items():
            text = re.sub(r'\bRattle\.%s\.proofs\.%s\b' % (c, old), 'Rattle.%s.proofs.%s' % (c, new), text)
            if c == crate:
                text = re.sub(r'\bcrate::proofs::%s\b' % old, 'crate::proofs::%s' % new, text)
    for c, mods in R.SOURCE_FILES.items():
        for old, new in mods.items():
            text = re.sub(r'\bRattle\.%s\.(specs\.declared|proofs)\.%s\b' % (c, old), r'Rattle.%s.\1.%s' % (c, new), text)
            text = re.sub(r'\b%s::%s\b' % (c, old), '%s::%s' % (c, new), text)
            if c == crate:
                text = re.sub(r'\bcrate::%s\b' % old, 'crate::%s' % new, text)
                text = re.sub(r'\bmod %s;' % old, 'mod %s;' % new, text)
                text = re.sub(r'\bsuper::%s\b' % old, 'super::%s' % new, text)
    for old, new in R.CRATES.items():
        text = re.sub(r'\bRattle\.%s\b' % old, 'Rattle.%s' % new, text)
        text = re.sub(r'\buse %s::' % old, 'use %s::' % new, text)
    return text


def comment_words(comment, maps):
    def word(m):
        return R.PROSE.get(m.group(0), m.group(0))

    def code(m):
        t = m.group(0)
        return re.sub(r"[A-Za-z_][A-Za-z0-9_']*", lambda n: lookup(maps, n.group(0), False) or n.group(0), t)

    for old, new in R.PHRASES:
        comment = comment.replace(old, new)
    parts = re.split(r'(`[^`]*`)', comment)
    return ''.join(code(re.match(r'.*', p, re.S)) if p.startswith('`') else re.sub(r"[A-Za-z_][A-Za-z0-9_']*", word, p)
                   for p in parts)


def mended(text, regexes, path):
    """A text after the patterns of its file and those of all files."""
    for pattern, new in regexes.get(path, []) + regexes.get('*', []):
        text = re.sub(pattern, new, text)
    return text


def with_words(text, maps, own_dotted, by_word):
    """A text with each name renamed; by_word: names made of words too, as those of lemmas."""
    out, at = [], 0
    # (a module's definition is never named through a dot, but in a path)
    dotted_maps = [maps[0], own_dotted, {}, maps[3], maps[4]]
    for m in TOKEN.finditer(text):
        out.append(text[at:m.start()])
        at = m.end()
        tok = m.group(0)
        if m.lastgroup == 'comment':
            tok = comment_words(tok, maps)
        elif m.lastgroup == 'name':
            dotted = m.start() > 0 and text[m.start() - 1] == '.'
            new = lookup(dotted_maps if dotted else maps, tok, dotted)
            if new is None and (by_word or tok.startswith('in_')):
                new = by_parts(tok)
            tok = new if new is not None else tok
        out.append(tok)
    return ''.join(out) + text[at:]


def rename_code(text, path):
    crate = crate_of(path)
    text = mended(text, R.REGEXES_BEFORE, path)
    if path.endswith('Answers.antt'):
        text = re.sub(r'(?m)(^\s*|[{;]\s*)(%s) =' % '|'.join(R.LABELS), lambda m: '%s%s =' % (m.group(1), R.LABELS[m.group(2)]), text)
    for folder, files in (('specs', R.SPEC_FILES), ('proofs', R.PROOF_FILES)):
        if path == 'crates/%s/%s/Lib.antt' % (crate, folder):
            for old, new in files.get(crate, {}).items():
                text = re.sub(r'\bmod %s$' % old, 'mod ' + new, text, flags=re.M)
            return text
    own = R.MODULES.get(module_of(path) or '', {})
    brought = imported(text, R.MODULES)
    text = rename_paths(text, crate)
    proofs = '/proofs/' in path
    maps = [R.FILES.get(path, {}), own, brought, R.IN_CRATE.get(crate, {}), R.EVERYWHERE]
    text = with_words(text, maps, {k: v for k, v in own.items() if k[0] == '.'}, proofs)
    return mended(text, R.REGEXES_AFTER, path)


def new_path(path):
    parts = path.split('/')
    if parts[0] != 'crates':
        return path
    crate, kind = parts[1], parts[2] if len(parts) > 2 else ''
    rest = parts[3:]
    stem = lambda p: p.rsplit('.', 1)
    if kind == 'specs' and len(rest) == 1:
        s = stem(rest[0])
        rest = [R.SPEC_FILES.get(crate, {}).get(s[0], s[0]) + '.antt']
    elif kind == 'proofs' and len(rest) == 1:
        s = stem(rest[0])
        rest = [R.PROOF_FILES.get(crate, {}).get(s[0], s[0]) + '.antt']
    elif kind == 'proofs':
        files = R.SOURCE_FILES.get(crate, {})
        maps = [R.IN_CRATE.get(crate, {}), R.EVERYWHERE]
        deep = crate in R.DEEP
        rest = [(files.get(p, None) if deep or i == 0 else None) or lookup(maps, p, False) or p for i, p in enumerate(rest[:-1])] + rest[-1:]
    elif kind == 'src':
        files = R.SOURCE_FILES.get(crate, {})
        rest = [files.get(p[:-3], p[:-3]) + '.rt' if p.endswith('.rt') else files.get(p, p) for p in rest]
    return '/'.join([parts[0], R.CRATES.get(crate, crate), kind] + rest) if kind else path


def main():
    root = sys.argv[1] if len(sys.argv) > 1 else '.'
    os.chdir(root)
    paths = []
    for folder, dirs, files in os.walk('crates'):
        dirs[:] = [d for d in dirs if d != 'out']
        paths += [os.path.join(folder, f) for f in files]
    texts = {}
    for path in sorted(paths):
        if path.endswith(('.rt', '.antt')):
            text = rename_code(open(path, encoding='utf8').read(), path)
        elif path.endswith('.edit'):
            lines = []
            for line in open(path, encoding='utf8').read().split('\n'):
                m = re.match(r'(file|old|new):( ?)(.*)$', line, re.S)
                if m and m.group(1) == 'file':
                    line = 'file: ' + '/'.join(new_path('crates/%s/%s' % (crate_of(path), m.group(3))).split('/')[2:])
                    source = 'crates/%s/%s' % (crate_of(path), m.group(3))
                elif m:
                    line = '%s:%s%s' % (m.group(1), m.group(2), rename_code_line(m.group(3), source))
                lines.append(line)
            text = '\n'.join(lines)
        else:
            text = None
        texts[path] = text
    for path, text in texts.items():
        to = new_path(path)
        data = open(path, 'rb').read() if text is None else text.encode('utf8')
        if to != path:
            os.makedirs(os.path.dirname(to), exist_ok=True)
            mode = os.stat(path).st_mode
            os.remove(path)
            with open(to, 'wb') as f:
                f.write(data)
            os.chmod(to, mode)
        else:
            with open(to, 'wb') as f:
                f.write(data)
    for folder, dirs, files in os.walk('crates', topdown=False):
        if not os.listdir(folder):
            os.rmdir(folder)
    lines = open('crates.txt', encoding='utf8').read().split('\n')
    with open('crates.txt', 'w', encoding='utf8') as f:
        f.write('\n'.join(l if l.startswith('#') else
                          re.sub(r'[a-z_]+', lambda m: R.CRATES.get(m.group(0), m.group(0)), l) for l in lines))


SOURCES = {}


def rename_code_line(line, source):
    """A line of an edit, by the imports of the file that it edits."""
    if source not in SOURCES:
        SOURCES[source] = open(source, encoding='utf8').read()
    crate = crate_of(source)
    brought = imported(SOURCES[source], R.MODULES)
    maps = [R.FILES.get(source, {}), {}, brought, R.IN_CRATE.get(crate, {}), R.EVERYWHERE]
    line = with_words(mended(line, R.REGEXES_BEFORE, source), maps, {}, False)
    return mended(line, R.REGEXES_AFTER, source)


if __name__ == '__main__':
    main()
