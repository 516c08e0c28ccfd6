#!/usr/bin/env python3
"""Respells the repository's own names (definitions, lemmas, fields, constructors) as the toolchain's
style has them: snake case, and a dash only where it joins two names.

Started as `python3 tools/respell.py` at the top of a checkout. A second run changes nothing. The map
is kept in tools/respelled.tsv, in lines `crate old -> new`: a name that stands there is respelled the
same way again, also where its declaration is new already.

What is imported from a module that is no file of this repository (the libraries, what Rattle makes
from the source), and what a function's Proof.antt declares, is left as it is.
"""
import os
import re
import sys

# Names whose plain respelling would meet another name, with what they are called instead.
RENAMED = {
    "number-at": "number_at_lem",
    'getD-low': 'get_or-low',  # getD is get_or now
    'inUse': 'in_use_of',  # calls have a parameter in_use
    # lemmas of their function's name
    'again-up': 'again_up_lem',
    'append-said': 'append_said_lem',
    'bill-change': 'bill_change_lem',
    'bill-said': 'bill_said_lem',
    'column-from': 'column_from_lem',
    'compare-line': 'compare_line_lem',
    'counts-written': 'counts_written_lem',
    'edge-fits': 'edge_fits_lem',
    'header-written': 'header_written_lem',
    'height-in': 'height_in_lem',
    'least-key': 'least_key_lem',
    'list-end': 'list_end_lem',
    'lower-up': 'lower_up_lem',
    'mean-said': 'mean_said_lem',
    'moments-written': 'moments_written_lem',
    'on-counts': 'on_counts_lem',
    'own-text': 'own_text_lem',
    'pairs-in': 'pairs_in_lem',
    'replay-line': 'replay_line_lem',
    'replay-said': 'replay_said_lem',
    'repriced-result': 'repriced_result_lem',
    'same-state': 'same_state_lem',
    'settled-result': 'settled_result_lem',
    'settled-said': 'settled_said_lem',
    'summary-number': 'summary_number_lem',
    'table-said': 'table_said_lem',
    'tail-at': 'tail_at_lem',
    'uses-said': 'uses_said_lem',
    'vertex-fits': 'vertex_fits_lem',
    'write-table': 'write_table_lem',
}

# Lemmas that are in snake case already, and whose name a definition gets: by module, while it declares them.
# (And one definition that was declared by another name than the one it is used by.)
LEMMAS = {
    ('columns', 'specs', 'Columns'): {'field_own': 'own_at'},
    ('columns', 'proofs', 'Longer'): {'end_before': 'end_before_lem'},
    ('offers', 'proofs', 'Values'): {'value_in': 'value_in_lem'},
    ('provenance', 'proofs', 'Local'): {'all_right': 'all_right_lem'},
    ('settle', 'proofs', 'Comparing'): {'gives_at': 'gives_at_lem'},
    ('reading', 'proofs', 'Scanned'): {'on_row': 'on_row_lem'},
    ('roundtrip', 'proofs', 'RoundTrip'): {'read_table': 'read_table_lem', 'header_of': 'header_same'},
    ('promises', 'proofs', 'Demand1'): {'read_table': 'read_table_lem'},
}

# Names that keep their spelling.
LEFT = set()

# Words of the libraries that a dash may join.
WORDS = set('''length drop take set map filter reverse add sub mul div mod suc pred lt le eq ne gt ge min max mem pick
fold sum leb ltb eqb get get_or replicate append cons nil zero true false not and or if_then_else count_of iota
elim zip any all sum_by insert swap pow absurd fst snd ap subst sym'''.split())

RESERVED = set('''as in open use where let do module record data mutual abbrev unfoldable unfolding pub mod pattern
instance infix infixl infixr with rw search omega grind simp elim ruleset rule ground assumption case of if then else
λ result axiom cc refl'''.split())

SEPARATORS = ' \t\r\n(){}[].;,@"«»'
TOKEN = re.compile(r'[^\s(){}\[\].;,@"«»]+|\s+|.', re.S)
MARKS = ('pub', 'abbrev', 'unfoldable', 'pattern', 'axiom', 'instance')
SIGNATURE = re.compile(r'^(\s*)((?:(?:' + '|'.join(MARKS) + r')\s+)*)([^\s(){}\[\].;,@"«»:=]+)\s*(?:\{[^{}:=]*\}\s*)?:(?=\s|$)')
HEADER = re.compile(r'^\s*(?:(?:' + '|'.join(MARKS) + r')\s+)*(record|data|module|ruleset)\s+([^\s(){}\[\].;,@"«»]+)(.*)$')
BINDER = re.compile(r'[({]([^(){}:=]+?)\s*:\s')


def read(path):
    with open(path, encoding='utf-8', newline='') as f:
        return f.read()


def walk(top, ending):
    for folder, folders, files in os.walk(top):
        folders.sort()
        for f in sorted(files):
            if f.endswith(ending):
                yield os.path.join(folder, f)


# ---------------------------------------------------------------- spelling

def camel(word):
    """A word of a name in snake case; one that begins with a capital is a type, and stays."""
    if not word or word[0].isupper():
        return word
    word = re.sub(r"(?<=[a-z0-9'₀-₉])(?=[A-Zℕℤ])", '_', word)
    word = re.sub(r'(?<=[A-Z])(?=[A-Z][a-z])', '_', word)
    return re.sub(r'[A-Z]', lambda m: m.group(0).lower(), word)


def plain(name):
    """Whether a name is of letters, digits, dashes and primes alone."""
    return re.match(r"^[^\W\d_][\w'′-]*$", name) is not None and '--' not in name and not name.endswith('-')


def flat(name):
    """A name as a run of words: no dash left."""
    return '_'.join(camel(w) for w in name.split('-'))


def runs(words, known):
    """The ways to cut words into two runs or more that are all names: the fewest runs, the longest first."""
    best = {len(words): []}
    for i in range(len(words) - 1, -1, -1):
        for j in range(len(words), i, -1):
            if j in best and not (i == 0 and j == len(words)):
                run = '_'.join(words[i:j])
                if run in known or run.rstrip("'′") in known:
                    way = [run] + best[j]
                    if i not in best or len(way) < len(best[i]):
                        best[i] = way
    return best.get(0)


def spell(name, known):
    words = [camel(w) for w in name.split('-')]
    if len(words) == 1:
        return words[0]
    if name[0].isupper():
        return words[0] + '-' + spell('-'.join(words[1:]), known)
    way = runs(words, known)
    return '-'.join(way) if way else '_'.join(words)


def candidate(name):
    return plain(name) and (('-' in name) or (not name[0].isupper() and camel(name) != name))


# ---------------------------------------------------------------- antt text

def tokens(text):
    """Tokens of antt text: (kind, text) with kind name, space, mark, comment, string."""
    out = []
    i = 0
    n = len(text)
    while i < n:
        c = text[i]
        m = TOKEN.match(text, i)
        t = m.group(0)
        if t == '--' or (t.startswith('--') and set(t) == {'-'}):
            j = text.find('\n', i)
            j = n if j < 0 else j
            out.append(('comment', text[i:j]))
            i = j
            continue
        if c == '"':
            j = i + 1
            while j < n and text[j] != '"' and text[j] != '\n':
                j += 2 if text[j] == '\\' else 1
            j = min(j + 1, n)
            out.append(('string', text[i:j]))
            i = j
            continue
        if t.isspace():
            out.append(('space', t))
        elif c in SEPARATORS:
            out.append(('mark', t))
        else:
            out.append(('name', t))
        i = m.end()
    return out


def backquoted(text, change):
    return re.sub(r'`([^`\n]+)`', lambda m: '`' + change(m.group(1)) + '`', text)


class Repository:
    def __init__(self):
        self.crates = [l.split(':')[0] for l in read('crates.txt').split('\n') if ':' in l and not l.startswith('#')]
        self.antt = []
        self.modules = {}
        for crate in self.crates:
            for part in ('specs', 'proofs'):
                top = os.path.join('crates', crate, part)
                for path in walk(top, '.antt'):
                    self.antt.append(path)
                    rel = os.path.relpath(path, top)[:-len('.antt')].split(os.sep)
                    self.modules[('Rattle', crate, part) + tuple(rel)] = path
        self.rt = [p for c in self.crates for p in walk(os.path.join('crates', c, 'src'), '.rt')]
        self.edits = [p for c in self.crates for p in walk(os.path.join('crates', c, 'must-fail'), '.edit')]
        self.text = {p: read(p) for p in self.antt + self.rt + self.edits}
        self.functions = set()
        for p in self.rt:
            self.functions.update(re.findall(r'\b(?:fn|let|let\s+mut|ensures\*?|requires\*?)\s+(\w+)', self.text[p]))
            self.functions.update(re.findall(r'\b([a-z_]\w*)\s*:(?!:)', self.text[p]))  # and all else that Rattle names from

    def own(self, path):
        """Whether a module path leads into a file of this repository that isn't a function's proof."""
        for k in range(len(path), 2, -1):
            p = self.modules.get(tuple(path[:k]))
            if p:
                return not p.endswith(os.sep + 'Proof.antt')
        return False


def declared(text):
    """The names that an antt file declares: kind, name, line; kind is field, other or param (of a module, or of a let)."""
    out = []
    record = None
    for number, line in enumerate(text.split('\n'), 1):
        body = line.split(' --')[0] if not line.lstrip().startswith('--') else ''
        if not body.strip():
            continue
        indent = len(body) - len(body.lstrip())
        if record is not None and indent <= record:
            record = None
        for m in re.finditer(r'\blet ([^\s(){}\[\].;,@"«»:=]+) [:=]', body):
            out.append(('param', m.group(1), number))
        h = HEADER.match(body)
        if h:
            kind = h.group(1)
            if kind in ('record', 'data', 'ruleset'):
                out.append(('other', h.group(2), number))
            if kind == 'module':
                for b in BINDER.finditer(h.group(3)):
                    out += [('param', x, number) for x in b.group(1).split()]
            if kind == 'record' and not body.strip().startswith('record {'):
                record = indent
            continue
        m = SIGNATURE.match(body)
        if m:
            out.append(('field' if record is not None else 'other', m.group(3), number))
    return out


def uses(toks):
    """The `use` items of a file: (path, names or None, alias or None, start, end) in token numbers."""
    out = []
    i = 0
    n = len(toks)
    while i < n:
        if toks[i] == ('name', 'use') and (i == 0 or '\n' in toks[i - 1][1] or toks[i - 1][0] == 'space'):
            start = i
            i += 1
            while i < n and toks[i][0] == 'space':
                i += 1
            path = []
            names = None
            alias = None
            while i < n:
                if toks[i][0] == 'name':
                    path.append(toks[i][1])
                    i += 1
                    if i < n and toks[i] == ('mark', '.'):
                        i += 1
                        continue
                    break
                if toks[i] == ('mark', '{'):
                    names = []
                    i += 1
                    item = []
                    while i < n and toks[i] != ('mark', '}'):
                        if toks[i] == ('mark', ','):
                            names.append(item)
                            item = []
                        elif toks[i][0] == 'name':
                            item.append((toks[i][1], i))
                        i += 1
                    if item:
                        names.append(item)
                    i += 1
                    break
                break
            j = i
            while j < n and toks[j][0] == 'space' and '\n' not in toks[j][1]:
                j += 1
            if j < n and toks[j] == ('name', 'as'):
                j += 1
                while j < n and toks[j][0] == 'space':
                    j += 1
                if j < n and toks[j][0] == 'name':
                    alias = (toks[j][1], j)
                    i = j + 1
            out.append((path, names, alias, start, i))
        else:
            i += 1
    return out


class Context:
    """What a file's names mean: which are foreign, which modules are."""
    def __init__(self, repo, toks, proof, text):
        self.foreign = set()
        self.heads = {}
        self.uses = uses(toks)
        self.aliases = []
        for path, names, alias, start, end in self.uses:
            own = repo.own(path)
            if names is None:
                self.heads[alias[0] if alias else path[-1]] = own
                if alias:
                    self.aliases.append(alias[0])
                continue
            for item in names:
                if not item:
                    continue
                given = item[0][0]
                local = item[2][0] if len(item) == 3 else given
                if len(item) == 3:
                    self.aliases.append(local)
                if not own and len(item) == 1:
                    self.foreign.add(local)
                if local[:1].isupper():
                    self.heads[local] = own
        if proof:
            self.foreign.update(name for kind, name, _ in declared(text) if kind != 'param')


def respelled(toks, repo, context, table, prose, fields, proof, doubtful):
    """The tokens with the names of the table respelled."""
    out = [t for _, t in toks]
    inside = {}
    for path, names, alias, start, end in context.uses:
        own = repo.own(path)
        for i in range(start, end):
            inside[i] = None
        for item in names or []:
            for k, (name, i) in enumerate(item):
                inside[i] = (own if k == 0 else True) and name != 'as'
        if alias:
            inside[alias[1]] = True
    for i, (kind, t) in enumerate(toks):
        if kind == 'comment':
            out[i] = backquoted(t, lambda s: loose(s, prose, context.foreign))
            continue
        if kind != 'name' or t not in table:
            continue
        if i in inside:
            if inside[i]:
                out[i] = table[t]
            continue
        if i >= 2 and toks[i - 1] == ('mark', '.') and toks[i - 2][0] in ('name', 'mark'):
            chain = []
            j = i
            while j >= 2 and toks[j - 1] == ('mark', '.') and toks[j - 2][0] == 'name':
                chain.insert(0, toks[j - 2][1])
                j -= 2
            head = chain[0] if chain and not (j >= 1 and toks[j - 1] == ('mark', '.')) else None
            if head == 'tie':
                continue
            if head == 'Rattle':
                if repo.own(chain):
                    out[i] = table[t]
                continue
            if head is not None and (head in context.heads or head[:1].isupper()):
                if context.heads.get(head, True) and all(c[:1].isupper() for c in chain[1:]):
                    out[i] = table[t]
                    continue
                if not context.heads.get(head, True):
                    continue
            if t in fields:
                if proof and t in doubtful:
                    continue
                out[i] = table[t]
            continue
        if i >= 1 and toks[i - 1] == ('mark', '.') and i >= 2 and toks[i - 2][0] == 'space' and t in fields:
            out[i] = table[t]
            continue
        if t in context.foreign:
            continue
        out[i] = table[t]
    return out


def loose(text, table, foreign=()):
    """A text in backquotes, or of an edit: every token of the table respelled."""
    return ''.join(table[t] if t in table and t not in foreign else t
                   for t in re.findall(r"[^\s(){}\[\].;,@\"«»`/:]+|.", text, re.S))


# ---------------------------------------------------------------- Rattle text

CLAUSE = re.compile(r'\b(?:requires|ensures|invariant|decreases)\*?(?:\s+\w+)?\s*\{')


def rattle(text, clause, item, comment):
    """Source text with its clauses, ghost items and comments changed."""
    out = []
    i = 0
    n = len(text)
    while i < n:
        if text.startswith('//', i):
            j = text.find('\n', i)
            j = n if j < 0 else j
            out.append(comment(text[i:j]))
            i = j
        elif text[i] == '"':
            j = i + 1
            while j < n and text[j] != '"':
                j += 2 if text[j] == '\\' else 1
            out.append(text[i:j + 1])
            i = j + 1
        elif text.startswith('ghost ', i) and (i == 0 or not (text[i - 1].isalnum() or text[i - 1] == '_')):
            j = text.find(';', i)
            out.append(item(text[i:j]))
            i = j
        else:
            m = CLAUSE.match(text, i) if i == 0 or not (text[i - 1].isalnum() or text[i - 1] == '_') else None
            if m:
                depth = 1
                j = m.end()
                while depth:
                    depth += {'{': 1, '}': -1}.get(text[j], 0)
                    j += 1
                out.append(text[i:m.end()] + clause(text[m.end():j - 1], i) + '}')
                i = j
            else:
                out.append(text[i])
                i += 1
    return ''.join(out)


def functions(text):
    """Where each function of a source text begins, and the names of its parameters and lets."""
    starts = [(m.start(), m.group(1)) for m in re.finditer(r'\bfn\s+(\w+)', text)]
    bare = rattle(text, lambda s, i: ' ' * len(s), lambda s: ' ' * len(s), lambda s: ' ' * len(s))
    out = []
    for k, (at, name) in enumerate(starts):
        end = starts[k + 1][0] if k + 1 < len(starts) else len(text)
        body = bare[at:end]
        names = set(re.findall(r'\b([a-z_]\w*)\s*:(?!:)', body))
        names.update(re.findall(r'\blet\s+(?:mut\s+)?(\w+)', body))
        for group in re.findall(r'\(([\w\s,]+)\)\s*=>', body):
            names.update(re.findall(r'\w+', group))
        out.append((at, name, names))
    return out


def main():
    if not os.path.exists('crates.txt'):
        sys.exit('respell: start me at the top of the repository')
    repo = Repository()
    tsv = os.path.join('tools', 'respelled.tsv')
    kept = {}
    origin = {}
    if os.path.exists(tsv):
        for line in read(tsv).split('\n'):
            m = re.match(r'^(\S+) (\S+) -> (\S+)$', line)
            if m:
                kept[m.group(2)] = m.group(3)
                origin.setdefault(m.group(2), set()).add(m.group(1))
    new_names = set(kept.values())

    toks = {}
    contexts = {}
    declares = {}
    for p in repo.antt:
        toks[p] = tokens(repo.text[p])
        contexts[p] = Context(repo, toks[p], p.endswith('Proof.antt'), repo.text[p])
        declares[p] = declared(repo.text[p])

    # what a dash may join: definitions and constructors of specs
    known = set(WORDS)
    for p in repo.antt:
        if os.sep + 'specs' + os.sep in p:
            for kind, name, _ in declares[p]:
                if kind == 'other' and plain(name):
                    known.add(RENAMED.get(name, flat(name)))

    # the names to respell
    fields = set()
    others = set()
    wishes = {}
    for p in repo.antt:
        if p.endswith(os.sep + 'Proof.antt'):
            continue
        crate = p.split(os.sep)[1]
        here = set()
        for kind, t in toks[p]:
            if kind == 'name' and plain(t):
                here.add(RENAMED.get(t, flat(t)))
        near = (known & here) | WORDS
        names = declares[p] + [('alias', a, 0) for a in contexts[p].aliases]
        for kind, name, _ in names:
            if kind == 'field':
                fields.add(name)
            else:
                others.add(name)
            if name in new_names or name in LEFT or not candidate(name):
                continue
            if kind == 'alias' and name.startswith('#'):
                continue
            origin.setdefault(name, set()).add(crate)
            wishes.setdefault(name, set()).add(spell(name, near))
    for old, new in kept.items():
        if new in fields:
            fields.add(old)

    # a field that could be a name that Rattle makes is left
    made = {f.replace('_', '-') for f in repo.functions}
    doubtful = sorted(f for f in fields if candidate(f) and
                      (f in made or re.match(r'^(loop|enum|returns|let|if)(-|$)', f)))
    table = dict(kept)
    undecided = []
    for old, ways in sorted(wishes.items()):
        if old in table:
            continue
        if old in RENAMED:
            new = RENAMED[old]
        elif len(ways) == 1:
            new = next(iter(ways))
        else:
            new = flat(old) if not old[0].isupper() else sorted(ways, key=lambda w: (w.count('-'), w))[0]
            undecided.append((old, new, sorted(ways)))
        if new != old:
            table[old] = new

    # lemmas of LEMMAS, as long as their module declares them: what each file renames besides
    besides = {p: {} for p in repo.antt}
    for module, names in sorted(LEMMAS.items()):
        home = repo.modules.get(('Rattle',) + module)
        for old, new in sorted(names.items()):
            if home is None or not any(name == old for _, name, _ in declares[home]):
                continue
            besides[home][old] = new
            for p in repo.antt:
                for path, given, alias, start, end in contexts[p].uses:
                    if tuple(path[:4]) == ('Rattle',) + module and any(len(x) == 1 and x[0][0] == old for x in given or []):
                        besides[p][old] = new

    # collisions
    problems = []
    by_new = {}
    for old, new in table.items():
        by_new.setdefault(new, set()).add(old)
    for old, new in sorted(table.items()):
        if new in RESERVED:
            problems.append('%s -> %s: a word of the language' % (old, new))
    coincide = []
    for p in repo.antt:
        seen = set()
        for i, (kind, t) in enumerate(toks[p]):
            if kind == 'name' and not (i >= 1 and toks[p][i - 1] == ('mark', '.')):
                seen.add(t)
        stays = {t for t in seen if t not in besides[p]}
        for t in sorted(seen):
            if t in table:
                if t in contexts[p].foreign:
                    coincide.append((p, t))
                    continue
                new = table[t]
                if new in stays:
                    problems.append('%s: %s -> %s, which is there' % (p, t, new))
                for other in sorted(by_new[new] & seen):
                    if other > t:
                        problems.append('%s: %s and %s -> %s' % (p, t, other, new))
    for p in repo.rt:
        if not table:
            break
        spans = functions(repo.text[p])

        def look(s, at, p=p, spans=spans):
            inner = [f for f in spans if f[0] <= at]
            for kind, t in tokens(s):
                if kind == 'name' and t in table and inner:
                    if table[t] in inner[-1][2]:
                        problems.append('%s: %s -> %s, a parameter or let of %s' % (p, t, table[t], inner[-1][1]))
                    if table[t] in {x for _, x in tokens(s)}:
                        problems.append('%s: %s -> %s, which is in the clause of %s' % (p, t, table[t], inner[-1][1]))
            return s
        rattle(repo.text[p], look, lambda s: s, lambda s: s)

    # in edits and docs: also names that were respelled before this script
    after = {table.get(n, n) for n in fields | others} | {n for d in besides.values() for n in d.values()}
    lemmas = {old: new for d in LEMMAS.values() for old, new in d.items()}

    # words with a dash that programs read or print, as `check-order`: left in docs and comments
    spoken = set()
    for p in repo.rt:
        for string in re.findall(r'"((?:[^"\\\n]|\\.)*)"', repo.text[p]):
            spoken.update(re.findall(r'[a-z]+(?:-[a-z]+)+', string))
    prose = {old: new for old, new in table.items() if old not in spoken}

    def older(t):
        if t in spoken:
            return None
        if t in table:
            return table[t]
        if re.match(r"^[a-z][a-z0-9]*(-[a-z0-9]+)+['′]?$", t) and t not in others and t not in fields and flat(t) in after:
            return lemmas.get(flat(t), flat(t))
        if re.match(r"^[a-z][A-Za-z0-9'′]*[A-Z][A-Za-z0-9'′]*$", t) and t not in others and t not in fields and camel(t) in after:
            return camel(t)
        return None

    class Older(dict):
        def __contains__(self, t):
            return older(t) is not None

        def __getitem__(self, t):
            return older(t)
    old_table = Older()

    result = {}
    for p in repo.antt:
        here = dict(table, **besides[p]) if besides[p] else table
        out = respelled(toks[p], repo, contexts[p], here, prose, fields, p.endswith(os.sep + 'Proof.antt'), doubtful)
        result[p] = ''.join(out)
    for p in repo.rt:
        def piece(s, at=0):
            ts = tokens(s)
            return ''.join(respelled(ts, repo, Context(repo, ts, False, s), table, prose, fields, False, doubtful))

        foreign = set()
        for s in re.findall(r'ghost use [^;]*;', repo.text[p]):
            ts = tokens(s)
            foreign |= Context(repo, ts, False, s).foreign

        def clause(s, at, foreign=foreign):
            ts = tokens(s)
            context = Context(repo, ts, False, s)
            context.foreign |= foreign
            return ''.join(respelled(ts, repo, context, table, prose, fields, False, doubtful))
        result[p] = rattle(repo.text[p], clause, piece, lambda s: backquoted(s, lambda x: loose(x, prose)))
    for p in repo.edits:
        top = os.path.dirname(os.path.dirname(p))
        foreign = set()
        lines = []
        for line in repo.text[p].split('\n'):
            if line.startswith('#'):
                line = backquoted(line, lambda s: loose(s, old_table))
            elif line.startswith('file:'):
                target = os.path.join(top, line[len('file:'):].strip())
                foreign = contexts[target].foreign if target in contexts else set()
            else:
                m = re.match(r'^((?:old|new):)?(.*)$', line, re.S)
                ts = tokens(m.group(2))
                done = []
                for k, (kind, t) in enumerate(ts):
                    dotted = k >= 1 and ts[k - 1] == ('mark', '.')
                    if kind == 'name' and (t in old_table or t in table) and (t not in foreign or dotted):
                        t = table[t] if t in table else old_table[t]
                    done.append(t)
                line = (m.group(1) or '') + ''.join(done)
            lines.append(line)
        result[p] = '\n'.join(lines)
    docs = [p for p in ('README.md', 'CONTRIBUTING.md', os.path.join('tests', 'README.md')) if os.path.exists(p)]
    docs += [p for p in walk('docs', '.md')]

    def doc(s):
        parts = re.findall(r"[^\s(){}\[\].;,@\"«»`/:]+|.", s, re.S)
        whole = '/' not in s and not any(x.isspace() for x in s)
        return ''.join(old_table[t] if t in old_table and (whole or '-' not in t) else t for t in parts)
    for p in docs:
        repo.text[p] = read(p)
        result[p] = backquoted(repo.text[p], doc)
    believed = os.path.join('docs', 'believed')  # a script that has definitions' names in its strings
    if os.path.exists(believed):
        repo.text[believed] = read(believed)
        result[believed] = re.sub(r"\b[a-z][A-Za-z0-9]*[A-Z][A-Za-z0-9]*\b", lambda m: old_table[m.group(0)] if m.group(0) in old_table
                                  else m.group(0), backquoted(repo.text[believed], doc))

    touched = 0
    for p in sorted(result):
        if result[p] != repo.text[p]:
            touched += 1
            with open(p, 'w', encoding='utf-8', newline='') as f:
                f.write(result[p])
    lines = sorted('%s %s -> %s' % (c, old, table[old]) for old in table for c in origin.get(old, ()))
    with open(tsv, 'w', encoding='utf-8', newline='') as f:
        f.write('\n'.join(lines) + '\n')

    print('names %d (%d keep a dash), lines of the map %d, files touched %d' % (
        len(table), sum('-' in n for n in table.values()), len(lines), touched))
    print('renamed by the table at the head: %s' % (', '.join(
        '%s -> %s' % (o, n) for o, n in sorted(RENAMED.items()) if o in table) or 'none'))
    print('lemmas renamed by module: %s' % (', '.join(sorted({'%s -> %s' % x for d in besides.values() for x in d.items()})) or 'none'))
    for old, new, ways in undecided:
        print('undecided: %s -> %s (%s)' % (old, new, ', '.join(ways)))
    for p, t in coincide:
        print('kept in %s: %s, which is imported or made there' % (p, t))
    for old in sorted(set(table) & spoken):
        print('a word of a program too, left in docs and comments: %s' % old)
    for f in doubtful:
        print('doubtful field, left in functions\' proofs: %s' % f)
    for x in problems:
        print('collision: %s' % x)
    return 1 if problems else 0


if __name__ == '__main__':
    sys.exit(main())
