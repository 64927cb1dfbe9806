#!/usr/bin/env python3
"""Counts the places of the design pass in crates/*/src: places.py [--list N] [COMMIT], of the files here or of a commit.

1   enums in the form of Option or Result (one variant that holds something beside one that holds nothing, or a variant that is a refusal beside one
    that is none),
    fields and parameters that are a flag of a value beside them (x_on, has_x), and functions that take a kind or a row as a number (kind: u8)
2   groups of functions that differ in names, types and numbers alone
3   loops whose condition names an index that the body moves by a fixed step
4   functions that are one match from words to words (a conversion by hand)
5   pairs of parameters (name and type) that stand in the lists of twenty functions or more
6   parameters that are lengths beside the bytes that they cut
7   matches whose arms each call another function with the same arguments
8   files of answers, and their lines
--list N prints the places of point N."""
import atexit, collections, os, re, shutil, subprocess, sys, tempfile

ARGS = [a for a in sys.argv[1:]]
LIST = None
if '--list' in ARGS:
    i = ARGS.index('--list'); LIST = int(ARGS[i + 1]); del ARGS[i:i + 2]
ROOT = os.path.join(os.path.dirname(os.path.abspath(__file__)), '..')

def tree():
    if not ARGS:
        return ROOT
    d = tempfile.mkdtemp()
    atexit.register(shutil.rmtree, d)
    out = subprocess.run(['git', '-C', ROOT, 'archive', ARGS[0], 'crates'], capture_output=True, check=True).stdout
    subprocess.run(['tar', '-x', '-C', d], input=out, check=True)
    return d

def sources(top):
    for crate in sorted(os.listdir(os.path.join(top, 'crates'))):
        src = os.path.join(top, 'crates', crate, 'src')
        for folder, _, names in os.walk(src):
            for name in sorted(names):
                if name.endswith('.rt'):
                    p = os.path.join(folder, name)
                    yield os.path.relpath(p, os.path.join(top, 'crates')), open(p).read()

def plain(text):
    return re.sub(r'//[^\n]*', '', text)

def body_at(text, i):
    d = 0
    for j in range(i, len(text)):
        d += text[j] == '{'
        d -= text[j] == '}'
        if d == 0:
            return j
    return len(text)

def functions(text):
    """name, parameters, result, body, line"""
    t = plain(text)
    for m in re.finditer(r'^[ \t]*(?:pub )?(?:extern "C" )?fn (\w+)[^(\n]*\(', t, re.M):
        d, j = 1, m.end()
        while d and j < len(t):
            d += t[j] == '('
            d -= t[j] == ')'
            j += 1
        params = t[m.end():j - 1]
        k = re.search(r'^[ \t]*\{[ \t]*$', t[j:], re.M)
        k2 = t.find('{', j)
        head = t[j:].split('\n', 1)[0]
        if head.rstrip().endswith('{'):
            start = j + len(head.rstrip()) - 1
        elif k:
            start = j + k.start() + t[j + k.start():].find('{')
        else:
            start = k2
        yield m.group(1), params, head, t[start:body_at(t, start) + 1], t.count('\n', 0, m.start()) + 1

REFUSALS = re.compile(r'^(Refused|Bad\w*|No[A-Z]\w*|\w+Full|\w+Ended|\w+Empty|NotWaiting|Not[A-Z]\w*|Cut|Long|Stopped|Absent|Unlimited|Bad)$')

def enums(text):
    for m in re.finditer(r'^(?:pub )?enum (\w+)[^{\n]*\{', text, re.M):
        end = body_at(text, m.end() - 1)
        inner = plain(text[m.end():end])
        vs = re.findall(r'^\s+(\w+)(\s*[({][^\n]*)?,?$', inner, re.M)
        yield m.group(1), vs, text.count('\n', 0, m.start()) + 1

def optional(name, vs):
    if re.search(r'(Error|Refused|Refusal|Stop)$', name) or len(vs) < 2:
        return False
    holds = [v for v, p in vs if p.strip()]
    refusals = [v for v, p in vs if REFUSALS.match(v)]
    return len(vs) == 2 and len(holds) == 1 or 0 < len(refusals) < len(vs)

# a loop whose condition names an index that its body moves by a fixed step
def counts(head, body):
    return any(re.search(r'\b%s (=\s*%s\s*[-+]|[-+]=)\s*\w+;' % (v, v), body) for v in re.findall(r'\b[a-z]\w*\b', head))

def shape(body):
    words = {}
    def w(m):
        x = m.group(0)
        if x in ('match', 'if', 'else', 'while', 'let', 'mut', 'return', 'for', 'in', 'loop', 'break', 'as', 'true', 'false', 'ref'):
            return x
        return words.setdefault(x, 'w%d' % len(words))
    b = re.sub(r'0x[0-9A-Fa-f_]+|\b\d[\d_]*\b', '0', body)
    b = re.sub(r'b?"[^"]*"', '""', b)
    b = re.sub(r'[A-Za-z_]\w*(?:(?:::|\.)[A-Za-z_]\w*)*', w, b)
    return re.sub(r'\s+', ' ', b)

def main():
    top = tree()
    found = collections.defaultdict(list)
    shapes = collections.defaultdict(list)
    pairs = collections.defaultdict(list)
    for f, text in sources(top):
        for name, vs, line in enums(text):
            if optional(name, vs):
                found[1].append('%s:%d enum %s' % (f, line, name))
        for m in re.finditer(r'\b(\w+_on|has_\w+|\w+_given): bool', plain(text)):
            found[1].append('%s:%d %s' % (f, plain(text).count('\n', 0, m.start()) + 1, m.group(0)))
        for name, params, head, body, line in functions(text):
            if re.search(r'\b(kind|row|which): u(8|32|size)\b', params):
                found[1].append('%s:%d fn %s takes a number' % (f, line, name))
            if body.count('\n') >= 3:
                shapes[shape(body)].append('%s:%d %s' % (f, line, name))
            ps = sorted(set(re.sub(r"\s+", ' ', re.sub(r"&'\w+ ", '&', p)).strip() for p in params.split(',') if ':' in p))
            for i, a in enumerate(ps):
                for b in ps[i + 1:]:
                    pairs[a, b].append('%s %s' % (f, name))
            for p in ps:
                if re.search(r'lengths?: &\[usize\]|len: usize', p):
                    found[6].append('%s:%d %s %s' % (f, line, name, p))
            one = re.fullmatch(r'\{\s*match [\w.() /%]+ \{(.*)\}\s*\}', body, re.S)
            if one and not re.search(r'=> \{|if |return|\w\(s|\?', one.group(1)) and '=>' in one.group(1):
                arms = re.findall(r'=>\s*([^,\n]+),', one.group(1))
                if arms and all(re.fullmatch(r'[\w:.\-]+|\w+(::\w+)*\(\w+(::\w+)*(\(\w+\))?\)', a.strip()) for a in arms):
                    found[4].append('%s:%d %s' % (f, line, name))
            for mm in re.finditer(r'match [^{\n]+\{', body):
                inner = body[mm.end():body_at(body, mm.end() - 1)]
                calls = re.findall(r'=>\s*(?:return )?(\w+(?:::\w+)*)\(([^)]*)\)', inner)
                if len(calls) >= 2 and len(set(c for c, _ in calls)) >= 2 and len(set(a for _, a in calls)) == 1:
                    found[7].append('%s:%d %s' % (f, line, name))
        t = plain(text)
        for m in re.finditer(r'^[ \t]*while\b.*$', t, re.M):
            body = t[m.end() - 1:body_at(t, m.start() + m.group(0).rfind('{'))]
            if counts(m.group(0), body):
                found[3].append('%s:%d %s' % (f, t.count('\n', 0, m.start()) + 1, m.group(0).strip()))
    for s, at in shapes.items():
        if len(at) > 1:
            found[2].append('; '.join(at))
    for (a, b), at in pairs.items():
        if len(at) >= 20:
            found[5].append('%s, %s: %d functions' % (a, b, len(at)))
    answers = lines = 0
    for folder, _, names in os.walk(os.path.join(top, 'crates')):
        for name in names:
            if name == 'Answers.antt' and '/out/' not in folder:
                answers += 1
                n = open(os.path.join(folder, name)).read().count('\n')
                lines += n
    for n in range(1, 8):
        print('%d: %d' % (n, len(found[n])))
        if LIST == n:
            print('\n'.join('    ' + x for x in found[n]))
    print('8: %d files of answers, %d lines' % (answers, lines))

main()
