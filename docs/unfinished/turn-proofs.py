#!/usr/bin/env python3
"""Turns the proofs of functions that walked the code and closed a `tie.spec` (proofs/F/Proof.antt) into Invariants.antt and Answers.antt.

usage: turn-proofs.py NAMES ROOT CRATE [FUNCTION..]      NAMES is the folder that `rt names` wrote, at the top of ROOT, over the files as port.py left them

It goes by text and prints what it leaves. What the landed proofs needed is what it knows; read what it makes."""
import json, os, re, sys, glob

ID = r"[A-Za-z_≢≡⊎∥][A-Za-z0-9_'?₀₁₂₃≡≢∥]*(?:-[A-Za-z0-9_'?₀₁₂₃≡]+)*"
def norm(s): return s.replace('-', '_')

def rust_names(root):
    out = set()
    for p in glob.glob(root + '/crates/*/src/**/*.rt', recursive=True):
        t = re.sub(r'//.*', '', open(p).read())
        out |= {w for w in re.findall(r'[A-Za-z_][A-Za-z0-9_]*', t) if '_' in w}
    return out

def clause_names(root):
    """full path of a function -> (requires names, ensures names)"""
    out = {}
    for p in glob.glob(root + '/crates/*/src/**/*.rt', recursive=True):
        crate = p.split('/crates/')[1].split('/')[0]
        mod = os.path.relpath(p, f'{root}/crates/{crate}/src')[:-3]
        mods = [] if mod in ('lib', 'main') else mod.split('/')
        typ = None; cur = None; inl = []
        for l in open(p):
            m = re.match(r'^(?:pub )?mod ([a-z_0-9]+) \{', l)
            if m: inl = [m.group(1)]
            if re.match(r'^\}', l): typ = None; inl = []
            m = re.match(r'^impl(?:<[^>]*>)? (?:.* for )?([A-Z][A-Za-z0-9]*)', l)
            if m: typ = m.group(1)
            m = re.match(r'^\s*(?:#\[.*\]\s*)?(?:pub(?:\([a-z]+\))? )?(?:const )?(?:unsafe )?(?:extern "C" )?fn ([a-z_0-9A-Z]+)', l)
            if m:
                cur = '::'.join([crate] + mods + inl + ([typ] if typ and l.startswith(' ') else []) + [m.group(1)])
                out[cur] = ([], [])
            m = re.match(r'^\s*(requires|ensures)\*? (?:([a-z_0-9]+) )?\{', l)
            if m and cur:
                out[cur][0 if m.group(1) == 'requires' else 1].append(m.group(2))
    return out

def by_names(names, comps):
    """an index into nested pairs as a clause's name"""
    if not names or names == [None]: return comps
    if len(names) == 1: return [names[0]] + comps
    i = 0; rest = list(comps)
    while i < len(names) - 1:
        if rest[:1] == ['0']: return [names[i]] + rest[1:]
        if rest[:1] == ['1']: i += 1; rest = rest[1:]
        else: return comps
    return [names[-1]] + rest

def split_top(t):
    parts = []; depth = 0; cur = ''
    for ch in t:
        if ch in '([{': depth += 1
        if ch in ')]}': depth -= 1
        if ch == ',' and depth == 0:
            parts.append(cur); cur = ''
        else: cur += ch
    if cur.strip(): parts.append(cur)
    return parts

def recorded(rhs, names):
    """the tuple that rhs ends in, as a record of the clauses' names; None where it has none"""
    names = [n for n in names]
    if not names or names == [None]: return rhs
    t = rhs.rstrip()
    if len(names) == 1:
        # behind the lets
        return ' record { ' + names[0] + ' =' + (rhs if rhs.startswith((' ', '\n')) else ' ' + rhs) + ' }'
    if not t.endswith(')'): return None
    depth = 0
    for k in range(len(t) - 1, -1, -1):
        if t[k] in ')]}': depth += 1
        if t[k] in '([{':
            depth -= 1
            if depth == 0: break
    before = t[:k].rstrip()
    stmt = re.split(r'\bin\b|\n\n', before)[-1].strip()
    if before and not re.search(r'(\bin|\.)$', before) and not (re.match(r'(rw|simp) ', stmt) and 'λ' not in stmt): return None
    if before.endswith('.') and not re.search(r'λ[^.]*\.$', before.split('\n')[-1]): return None
    if before.endswith('.'): return None
    parts = split_top(t[k + 1:-1])
    while len(parts) < len(names):
        z = parts[-1].strip()
        if not (z.startswith('(') and z.endswith(')')) and len(parts) >= 1 and not z.startswith(('omega', 'search', 'rw', 'simp', 'λ', 'refl')):
            h = len(parts) - 1; rest = names[h:]
            idx = [('1.' * q + ('0' if q < len(rest) - 1 else '')).rstrip('.') for q in range(len(rest))]
            vals = [x.strip() for x in parts[:-1]] + [f'rest.{x}' for x in idx]
            return t[:k] + 'let rest = ' + z + ' in\n    record { ' + '; '.join(f'{n} = {v}' for n, v in zip(names, vals)) + ' }'
        if not (z.startswith('(') and z.endswith(')')): return None
        inner = split_top(z[1:-1])
        if len(inner) < 2: return None
        parts = parts[:-1] + inner
    head = parts[:len(names) - 1]; tail = parts[len(names) - 1:]
    last = tail[0].strip() if len(tail) == 1 else '(' + ', '.join(x.strip() for x in tail) + ')'
    vals = [x.strip() for x in head] + [last]
    return t[:k] + 'record { ' + '; '.join(f'{n} = {v}' for n, v in zip(names, vals)) + ' }'

class Fn:
    def __init__(self, d):
        self.d = d
        self.step = {}      # old step -> new step
        self.callee = {}
        self.field = {}     # (old step, field) -> new field
        self.arm = {}       # (old step, path tuple) -> (arm, newfield)
        for pl, arm in zip(d['places'], d['arms']):
            name, parent, (old, new), callee, fields = pl
            if old:
                self.step.setdefault(norm(old), new)
                if callee: self.callee.setdefault(norm(old), callee)
            for a, b in fields:
                if (norm(old), a) not in self.field: self.field[(norm(old), a)] = b
            if arm:
                an, n, fs = arm
                for nf, os_, path in fs:
                    key = (norm(os_), tuple(path))
                    if key not in self.arm or not path: 
                        self.arm.setdefault(key, []).append((an, nf, name))
        self.needs = d['needs']; self.asked = d['asked_at']
        self.parent = {p[0]: p[1] for p in d['places']}
        self.index = {p[0]: i for i, p in enumerate(d['places'])}
    def arm_of(self, place, oldstep, comps):
        # longest path of an arm mapping
        best = None
        for (s, path), lst in self.arm.items():
            if s != norm(oldstep) or not path: continue
            if tuple(comps[:len(path)]) == path:
                if best is None or len(path) > len(best[0]):
                    best = (path, lst)
        if best:
            path, lst = best
            # choose the arm visible from place
            chain = []
            p = place
            while p:
                chain.append(p); p = self.parent.get(p)
            for an, nf, pl in lst:
                if pl in chain: return path, an, nf
            return path, lst[0][0], lst[0][1]
        return None

def split_decls(text):
    """top: list of (kind, lines) : imports, comments and declarations"""
    lines = text.split('\n')
    blocks = []; cur = []
    def flush():
        nonlocal cur
        if cur: blocks.append(cur); cur = []
    for l in lines:
        if l.strip() == '':
            flush(); continue
        cur.append(l)
    flush()
    return blocks

def name_of_block(b):
    body = [l for l in b if not l.startswith('--')]
    m = re.match(r'^(?:(?:pub|abbrev|unfoldable) )*(' + ID + ')', body[0])
    return m.group(1) if m else None

CL = {}
RP = {}
def ref_params(root):
    out = {}
    for p in glob.glob(root + '/crates/*/src/**/*.rt', recursive=True):
        crate = p.split('/crates/')[1].split('/')[0]
        mod = os.path.relpath(p, f'{root}/crates/{crate}/src')[:-3]
        mods = [] if mod in ('lib', 'main') else mod.split('/')
        typ = None
        text = open(p).read()
        lines = text.split('\n'); off = 0
        for l in lines:
            if re.match(r'^\}', l): typ = None
            m = re.match(r'^impl(?:<[^>]*>)? (?:.* for )?([A-Z][A-Za-z0-9]*)', l)
            if m: typ = m.group(1)
            m = re.match(r'^\s*(?:#\[.*\]\s*)?(?:pub(?:\([a-z]+\))? )?(?:const )?(?:unsafe )?(?:extern "C" )?fn ([a-z_0-9A-Z]+)', l)
            if m:
                cur = '::'.join([crate] + mods + ([typ] if typ and l.startswith(' ') else []) + [m.group(1)])
                k = text.index('(', off + m.end()); d = 0; e = k
                while True:
                    if text[e] in '([<{': d += 1
                    if text[e] in ')]>}': d -= 1
                    if d == 0: break
                    e += 1
                ps = []
                for part in split_top(text[k + 1:e].replace('->', '')):
                    part = ' '.join(part.split())
                    if not part: continue
                    if re.match(r'^&(\'\w+ )?(mut )?self$', part): ps.append(('self', 'mut' in part)); continue
                    mm = re.match(r'^(?:mut )?(\w+): &(?:\'\w+ )?(mut )?', part)
                    if mm: ps.append((mm.group(1), bool(mm.group(2))))
                    else: ps.append((part.split(':')[0].replace('mut ', '').strip(), False))
                out[cur] = ps
            off += len(l) + 1
    return out

def convert(root, crate, fnpath, names, rust, log):
    d = os.path.join(root, 'crates', crate, 'proofs', fnpath)
    path = os.path.join(d, 'Proof.antt')
    text = open(path, encoding='utf-8').read()
    own_path = crate + '::' + fnpath.replace('/', '::')
    if own_path not in CL: log.append(f'{crate}/{fnpath}: no contract found')
    key = f"Rattle-{crate}-proofs.{fnpath.replace('/', '.')}.Lts"
    if 'tie.spec' not in text and not re.search(r'^use .*\.Tie as tie$', text, re.M):
        log.append(f'{crate}/{fnpath}: no tie'); return False
    if key not in names:
        log.append(f'{crate}/{fnpath}: no names'); return False
    fn = Fn(names[key])
    blocks = split_decls(text)
    imports = []; comments = []; decls = []
    pending = []
    for b in blocks:
        # imports block may be mixed with comments
        if any(re.match(r'^(pub )?use ', l) for l in b):
            for l in b:
                if l.startswith('--'): comments.append(l)
                else: imports.append(l)
            continue
        if all(l.startswith('--') for l in b):
            pending += b; continue
        decls.append(pending + b); pending = []
    # a declaration may contain several blocks (module _ .. where with blank lines): glue indented blocks
    glued = []
    for b in decls:
        if glued and b[0].startswith(' '):
            glued[-1] += [''] + b
        else: glued.append(b)
    decls = glued
    spec_args = None; answers = {}; order = []; invs = {}; helpers = []; own = {}
    for b in decls:
        body = [l for l in b if not l.startswith('--')]
        head = body[0] if body else ''
        m = re.match(r'^(?:pub )?(' + ID + r') : \{M : Type 1\}', head)
        if m:
            joined = ' '.join(x.strip() for x in body)
            mm = re.search(r'tie\.spec(.*?)\)\s*$', joined) or re.search(r'tie\.spec(.*)$', joined)
            if mm: spec_args = mm.group(1).replace(')', ' ').split()
            continue
        m = re.match(r'^(abbrev |unfoldable )?(?:pub )?(' + ID + r') : tie\.(' + ID + r')(.*)$', head)
        if m:
            name, typ = m.group(2), m.group(3)
            if typ.startswith('Need-'):
                answers[name] = (typ[5:], m.group(4), b); order.append(name)
            elif not re.match(r'(invariant|decreases|measure)', typ):
                helpers.append(b)
            else:
                invs[name] = (typ, b)
            continue
        helpers.append(b)
    if spec_args is None:
        log.append(f'{crate}/{fnpath}: no tie.spec'); return False
    args_need = [a for a in spec_args if a in answers]
    bad = [a for a in spec_args if a not in answers and a not in invs]
    if bad: log.append(f'{crate}/{fnpath}: spec args not understood: {bad}'); return False
    need_of = {}
    if len(args_need) == len(fn.needs):
        for i, a in enumerate(args_need): need_of[a] = i
        # sanity: names
        for a, i in need_of.items():
            o = norm(answers[a][0]); exp = norm(fn.needs[i][0])
            o2 = o.replace('overflow_', '').replace('slice_bounds_', 'part_')
            if exp not in (o, o2): log.append(f'{crate}/{fnpath}: need {i} {answers[a][0]} vs {fn.needs[i][0]}')
    else:
        log.append(f'{crate}/{fnpath}: {len(args_need)} answers, {len(fn.needs)} needs; by name')
        used = set()
        for a in args_need:
            o = norm(answers[a][0]); o2 = o.replace('overflow_', '').replace('slice_bounds_', 'part_')
            hit = None
            for i, (x, y) in enumerate(fn.needs):
                if i in used: continue
                if norm(x) in (o, o2) or norm(y) in (o,):
                    hit = i; break
            if hit is None: log.append(f'{crate}/{fnpath}: dropped need {answers[a][0]}'); continue
            used.add(hit); need_of[a] = hit

    # helpers from one place's record to another's: the record has all now
    shifts = set()
    for b in list(helpers):
        t = '\n'.join(l for l in b if not l.startswith('--'))
        if re.match(r"^(?:abbrev |pub |unfoldable )*(" + ID + r") : (?:\(" + ID + r" : )?tie\.(?!Need)(" + ID + r")[^→\n]* → tie\.(" + ID + r")[^\n→]*\n", t):
            shifts.add(name_of_block(b)); helpers.remove(b)
    # the spelled source names of parameters and fields
    def field_name(w):
        if '-' in w and norm(w) in rust: return norm(w)
        return w

    def rewrite(src, place0, ctx0, extra_alias=None):
        """src: text of the answer body, ctx0: name of the context"""
        alias = {ctx0: ('ctx', place0, [])}
        if ctx0 != '\0':
            again = True
            while again:
                again = False
                for sh in shifts:
                    t = re.sub(r"\(" + re.escape(sh) + r" (" + ID + r"(?:\." + ID + r")*)\)", r"\1", src)
                    t = re.sub(r"let (" + ID + r") = " + re.escape(sh) + r" (" + ID + r"(?:\." + ID + r")*)\s+in\b", r"let \1 = \2 in", t)
                    if t != src: again = True; src = t
        out = []
        # handle lets first, in textual order, token by token
        pos = 0
        res = ''
        pat = re.compile(r'let (' + ID + r')(?: : ℕ)? = (' + ID + r')((?:\.(?:' + ID + r'|\d+))*)\s+in\b[ \t]*\n?[ \t]*')
        def path_new(base, comps):
            # returns the new text of base.comps, base a context alias
            kind, place, pre = alias[base]
            comps = list(pre) + list(comps)
            i = 0; pl = place
            while i < len(comps) and comps[i] == 'before':
                i += 1
            comps = comps[i:]
            if not comps: return 'c'
            st = comps[0]
            if st in ('args', 'requires', 'ranges', 'well_formed', 'good', 'good_of'):
                rest = comps[1:]
                if st == 'requires': rest = by_names(CL.get(own_path, ([], []))[0], rest)
                return 'c.' + '.'.join([st] + [field_name(x) for x in rest])
            am = fn.arm_of(place, st, comps[1:])
            if am:
                path, an, nf = am
                rest = comps[1 + len(path):]
                return 'c.' + '.'.join([an, nf] + [field_name(x) for x in rest])
            new = None; p = place
            while p:
                o, n = fn.d['places'][fn.index[p]][2]
                if o and norm(o) == norm(st): new = n; break
                p = fn.parent.get(p)
            if p:
                arm = fn.d['arms'][fn.index[p]]
                if arm:
                    for nf, os_, path in arm[2]:
                        if norm(os_) == norm(st) and not path:
                            new = arm[0] + '.' + nf
            if new is None: new = fn.step.get(norm(st))
            if new is None:
                low = norm(st).lower()
                k2 = re.sub(r'_(\d+)$', r'\1', low)
                for kk in (low, k2):
                    if kk in fn.step: new = fn.step[kk]; st = kk
            if new is None:
                log.append(f'{crate}/{fnpath}: step {st}?')
                new = st
            rest = [field_name(x) for x in comps[1:]]
            if rest[:1] == ['inv']: rest[0] = 'invariant'
            if new.startswith('loop') and rest[:1] == ['auto']: rest[0] = 'kept'
            if new.startswith('if-') and rest and rest[-1] in ('taken', 'left'): rest[-1] = {'taken': 'true', 'left': 'false'}[rest[-1]]
            callee = fn.callee.get(norm(st))
            if callee in RP and rest[:1] in (['new'], ['auto'], ['kept'], ['last']) and len(rest) > 1 and rest[1] in ('0', '1'):
                rp = RP[callee]; k = 0; j = 1
                while j < len(rest) and rest[j] == '1': k += 1; j += 1
                if j < len(rest) and rest[j] == '0': j += 1
                muts = [n for n, mu in rp if mu]
                if k < len(rp) and rp[k][1]: nm = rp[k][0]
                elif len(muts) == 1: nm = muts[0]
                elif k < len(muts): nm = muts[k]
                else: nm = '?'
                rest = [rest[0], nm] + rest[j:]
            if callee in CL and rest[:1] == ['ensures']: rest = ['ensures'] + by_names(CL[callee][1], rest[1:])
            return 'c.' + '.'.join([new] + rest)
        pth = re.compile(r"(?<![A-Za-z0-9_'?.-])(" + ID + r')((?:\.(?:' + ID + r'|\d+))*)')
        def sub(m):
            base = m.group(1)
            if base not in alias or alias[base][0] != 'ctx': 
                # fields behind other bases: source spelling
                comps = m.group(2).split('.')[1:]
                return base + ''.join('.' + field_name(x) for x in comps)
            comps = [x.replace('step_of_lem', 'step_of') for x in m.group(2).split('.')[1:]]
            return path_new(base, comps)
        # process sequentially so that aliases are known
        while True:
            m = pat.search(src, pos)
            if not m:
                res += pth.sub(sub, src[pos:]); break
            if m.group(2) in alias and alias[m.group(2)][0] == 'ctx':
                res += pth.sub(sub, src[pos:m.start()])
                alias[m.group(1)] = ('ctx', place0, list(alias[m.group(2)][2]) + [x.replace('step_of_lem', 'step_of') for x in m.group(3).split('.')[1:]])
                pos = m.end()
            else:
                res += pth.sub(sub, src[pos:m.end()]); pos = m.end()
        return res

    place_new = {norm(p[0]): n for p, n in zip(fn.d['places'], fn.d['places_by_name'])}
    place_new.update({norm(a): b for a, b in fn.asked})
    old_place = {norm(p[0]): p[0] for p in fn.d['places']}
    helper_text = []
    for b in helpers:
        t = '\n'.join(b)
        t = re.sub(r"\((" + ID + r") : tie\.(" + ID + r")(?: " + ID + r")+\)", r"(\1 : tie.\2)", t)
        sig = re.search(r"\((" + ID + r") : tie\.(" + ID + r")\)", t) or re.search(r"^(?:pub |abbrev )*" + ID + r" : ()tie\.(" + ID + r") →", t, re.M)
        if sig:
            pl = old_place.get(norm(sig.group(2)))
            ctxn = sig.group(1)
            if not ctxn:
                mm = re.search(r"^" + re.escape(name_of_block(b) or '?') + r" (" + ID + r")", t, re.M)
                ctxn = mm.group(1) if mm else 'c'
            t2 = rewrite(t, pl, ctxn)
            if ctxn != 'c': t2 = re.sub(r"\((" + ctxn + r") : tie", "(c : tie", t2); t2 = re.sub(r"^(" + re.escape(name_of_block(b) or '?') + r"(?: [^=\n]*)?) " + ctxn + r"\b", r"\1 c", t2, flags=re.M)
            def pn(m):
                n = place_new.get(norm(m.group(1)))
                if n is None: log.append(f'{crate}/{fnpath}: place {m.group(1)}?'); return m.group(0)
                return 'goal.' + n
            t2 = re.sub(r"tie\.(" + ID + r")", pn, t2)
            t = t2
        else: t = rewrite(t, None, '\0')
        helper_text.append(t)
    lets = {}
    for b, t in list(zip(helpers, helper_text)):
        n = name_of_block(b)
        ls = [l for l in t.split('\n') if not l.startswith('--')]
        tt = '\n'.join(ls)
        m = re.match(r"^(?:abbrev |pub |unfoldable )*" + re.escape(n or '?') + r" : \(c : goal\.[^)]*\)\s*→\s*(.*?)\n(unfolding [^\n]*\n)?" + re.escape(n or '?') + r" c =(.*)$", tt, re.S)
        if m and not m.group(2):
            lets[n] = (m.group(1).strip(), m.group(3).strip())
            k = helpers.index(b); helpers.pop(k); helper_text.pop(k)
    def with_lets(rhs):
        used = []
        def walk(t):
            for n in lets:
                if re.search(r"(?<![A-Za-z0-9_'?.-])" + re.escape(n) + r" c(?![A-Za-z0-9_'?.-])", t) and n not in used:
                    walk(lets[n][1]); walk(lets[n][0]); used.append(n)
        walk(rhs)
        def strip(t):
            for n in lets:
                t = re.sub(r"\(" + re.escape(n) + r" c\)", n, t)
                t = re.sub(r"(?<![A-Za-z0-9_'?.-])" + re.escape(n) + r" c(?![A-Za-z0-9_'?.-])", n, t)
            return t
        pre = ''
        for n in used:
            ty, ex = lets[n]
            pre += f'\n    let {n} : {strip(ty)} = {strip(ex)} in'
        if not pre: return rhs
        return pre + ('\n    ' if not rhs.startswith('\n') else '') + strip(rhs).lstrip(' ')
    outA = []; skipped = 0
    for a in order:
        if a not in need_of: continue
        i = need_of[a]
        new = fn.needs[i][1]; place = fn.asked[i][0] if i < len(fn.asked) else None
        typ, tail, b = answers[a]
        com = [l for l in b if l.startswith('--')]
        body = [l for l in b if not l.startswith('--')]
        unf = [l for l in body[1:] if re.match(r'^\s*unfolding ', l)]
        rest = [l for l in body[1:] if not re.match(r'^\s*unfolding ', l)]
        src = '\n'.join(rest)
        # may hold more definitions (where) : first line NAME params = body
        m = re.match(r'^' + re.escape(a) + r'((?: [^=\n]*?)?) =(.*)$', src, re.S)
        if not m:
            log.append(f'{crate}/{fnpath}: answer {a} not understood'); 
            outA.append('\n'.join(com + body)); continue
        params = m.group(1).split(); rhs = m.group(2)
        if rhs.strip() in ('search rules', 'search (rules)', 'refl') and rhs.strip() != 'refl' and not unf:
            skipped += 1; continue
        ctx = params[0] if params else 'c'
        extra = params[1:]
        if extra and extra[-1] in ('κs', '_'): extra = extra[:-1]
        rhs = rhs.replace('(λ c e. not_', '(λ k e. not_')
        rhs2 = rewrite(rhs, place, ctx)
        rhs2 = re.sub(r"(?<!opened )(c\.in_default[A-Za-z0-9_-]*\.in_default[A-Za-z0-9_-]*-own\.keys\d+)", r"(opened \1)", rhs2)
        # a bool that was tested is now the fact itself
        rhs2 = re.sub(r"\(not-(?:true|false) (?:[^\s()]+|\([^()]*\)) (c\.[^\s(),]+\.(?:true|false))\)", r"\1", rhs2)
        rhs2 = re.sub(r"\bnot-(?:true|false) (?:[^\s()]+|\([^()]*\)) (c\.[^\s(),]+\.(?:true|false))(?![A-Za-z0-9.])", r"\1", rhs2)
        cn = None
        if new.startswith('returns'): cn = CL.get(own_path, ([], []))[1]
        elif re.search(r'-requires(-[a-z0-9_-]+)?$', new) and place:
            # the callee by the need's old name
            stem = norm(fn.needs[i][0])
            mm = re.match(r'^(.*)_requires(?:_(\d+))?$', stem)
            if mm:
                cal = fn.callee.get(mm.group(1) + (mm.group(2) or ''))
                if cal in CL: cn = CL[cal][0]
        if cn and cn != [None] and not rhs2.strip().startswith('search'):
            t = recorded(rhs2, cn)
            if t is None and len(cn) > 1:
                # behind the lets: the lemma's pair by its parts
                m9 = re.match(r"^(\s*(?:let [^=]+ = [^\n]*?\s+in\s+)*)(.*)$", rhs2, re.S)
                lets, e = m9.group(1), m9.group(2)
                if 'let ' not in e and 'λ' not in e.split('(')[0] and not e.lstrip().startswith(('simp', 'rw', 'omega', 'search', 'absurd', 'elim')):
                    own = CL.get(own_path, ([], []))[0]
                    if e.strip() == 'c.requires' and len(own) == len(cn):
                        t = lets + ' record { ' + '; '.join(f'{n} = c.requires.{o}' for n, o in zip(cn, own)) + ' }'
                    idx = ['1.' * k + ('0' if k < len(cn) - 1 else '') for k in range(len(cn))]
                    idx = [x.rstrip('.') for x in idx]
                    if t is None: t = lets + ('' if lets.endswith('\n') or not lets.strip() else '\n    ') + (' ' if not lets.strip() else '') + 'let both = ' + e.strip() + ' in\n    record { ' + '; '.join(f'{n} = both.{x}' for n, x in zip(cn, idx)) + ' }'
            if t is None:
                log.append(f'{crate}/{fnpath}: answer {new}: record {cn}')
                if len(cn) == 1 and not re.search(r'\b(let|λ)\b', rhs2): rhs2 = f' record {{ {cn[0]} = {rhs2.strip()} }}'
            else: rhs2 = t
        if extra: log.append(f'{crate}/{fnpath}: answer {a} has parameters {params}')
        rhs2 = with_lets(rhs2)
        rhs2 = re.sub(r"\(not-(?:true|false) (?:[^\s()]+|\([^()]*\)) (c\.[^\s(),]+\.(?:true|false))\)", r"\1", rhs2)
        rhs2 = re.sub(r"\bnot-(?:true|false) (?:[^\s()]+|\([^()]*\)) (c\.[^\s(),]+\.(?:true|false))(?![A-Za-z0-9.])", r"\1", rhs2)
        outA.append('\n'.join(com + [f'pub {new} : goal.{new}'] + unf + [f'{new} {" ".join(["c"] + extra)} ={rhs2}']))
    outI = []
    for name, (typ, b) in invs.items():
        com = [l for l in b if l.startswith('--')]
        body = [l for l in b if not l.startswith('--')]
        unf = [l for l in body[1:] if re.match(r'^\s*unfolding ', l)]
        rest = [l for l in body[1:] if not re.match(r'^\s*unfolding ', l)]
        src = '\n'.join(rest)
        m = re.match(r'^' + re.escape(name) + r'((?: [^=\n]*?)?) =(.*)$', src, re.S)
        if not m: log.append(f'{crate}/{fnpath}: invariant {name} not understood'); continue
        params = m.group(1).split(); rhs = m.group(2)
        kind, lp = re.match(r'(invariant|decreases|measure)-?(.*)$', typ).groups() if re.match(r'(invariant|decreases|measure)-?(.*)$', typ) else (typ, '')
        # loop index
        loops = fn.d['loops']
        li = None
        for k, ((o, n), vs) in enumerate(loops):
            if norm(o) == norm(lp): li = k
        if li is None:
            log.append(f'{crate}/{fnpath}: {typ}: no loop {lp}'); 
            outI.append('\n'.join(com + body)); continue
        (o, n), vs = loops[li]
        ch = fn.d['changed'][li]
        expect = []
        for v, c in zip(vs, ch):
            if not c: expect.append((v, 'now'))
        base = [(v, 'first' if c else 'now') for v, c in zip(vs, ch)] + [(v, 'now') for v, c in zip(vs, ch) if c]
        sub = {}
        ctxname = 'l'
        bound = set(re.findall(r"λ ([^.]*)\.", rhs)); boundw = set(w for b in bound for w in re.findall(ID, b)) | set(re.findall(r"\((" + ID + r") :", rhs)) | set(w for g in re.findall(r"\(((?:" + ID + r" )+):", rhs) for w in g.split())
        if 'l' in boundw: ctxname = 'turn'
        if len(base) != len(params):
            # by name
            log.append(f'{crate}/{fnpath}: {typ}: {len(params)} parameters {params} for {base}')
            for p in params:
                if p.endswith('₀'): sub[p] = ctxname + '.initial.' + field_name(p[:-1])
                else: sub[p] = ctxname + '.' + field_name(p)
        else:
            for p, (v, w) in zip(params, base):
                sub[p] = (ctxname + '.' if w == 'now' else ctxname + '.initial.') + v
        def rep(m):
            return sub.get(m.group(0), m.group(0))
        rhs2 = re.sub(r"(?<![A-Za-z0-9_'?.-])" + ID, rep, rhs)
        rhs2 = re.sub(r"\.(" + ID + ")", lambda m: '.' + field_name(m.group(1)), rhs2)
        outI.append('\n'.join(com + [f'abbrev pub {kind}-{n} : goal.{kind}-{n}'] + unf + [f'{kind}-{n} {ctxname} ={rhs2}']))
    # helpers: those that invariants use go to Invariants, made pub
    def name_of(b):
        body = [l for l in b if not l.startswith('--')]
        m = re.match(r'^(?:(?:pub|abbrev|unfoldable) )*(' + ID + ')', body[0])
        return m.group(1) if m else None
    hn = {}
    for b in helpers: hn.setdefault(name_of(b), []).append(b)
    inI = set()
    textI = '\n'.join(outI)
    changed = True
    while changed:
        changed = False
        for b, t in zip(helpers, helper_text):
            n = name_of(b)
            if n and n not in inI and re.search(r"(?<![A-Za-z0-9_'?.-])" + re.escape(n) + r"(?![A-Za-z0-9_'?-])", textI):
                inI.add(n); textI = t + '\n' + textI; changed = True
    def pubbed(t):
        ls = t.split('\n'); done = []
        first = True
        for l in ls:
            if first and not l.startswith('--') and not l.startswith(' '):
                if not re.match(r'^(abbrev pub|unfoldable pub|pub) ', l) and not l.startswith('module'):
                    l = re.sub(r'^(abbrev |unfoldable )?', lambda m: (m.group(1) or '') + 'pub ', l, count=1)
                first = False
            done.append(l)
        return '\n'.join(done)
    imp = [l for l in imports if not re.search(r'\.(Tie as tie|Statement\.\{statement\})$', l)]
    P = f"Rattle.{crate}.proofs.{fnpath.replace('/', '.')}"
    res = {}
    if outI:
        I = imp + [f'use {P}.Given as goal'] 
        res['Invariants.antt'] = '\n'.join(comments + I) + '\n\n' + '\n\n'.join([pubbed(t) for b, t in zip(helpers, helper_text) if name_of(b) in inI] + outI) + '\n'
    hs = [t for b, t in zip(helpers, helper_text) if name_of(b) not in inI]
    if outA:
        I = list(imp)
        if any('(opened c.' in a for a in outA): I.append('use borrow.Enum.Refused.{opened}')
        if inI: I.append(f"use {P}.Invariants.{{{', '.join(sorted(inI))}}}")
        I.append(f'use {P}.Goals as goal')
        res['Answers.antt'] = '\n'.join(comments + I) + '\n\n' + '\n\n'.join(hs + outA) + '\n'
    elif hs:
        log.append(f'{crate}/{fnpath}: helpers {[name_of(b) for b in helpers]} have no answer left')
    for f, t in res.items():
        open(os.path.join(d, f), 'w', encoding='utf-8').write(t)
    old = os.path.join('turned', crate, fnpath); os.makedirs(old, exist_ok=True)
    os.rename(path, os.path.join(old, 'Proof.antt'))
    if not os.listdir(d): os.rmdir(d)
    return True

def main():
    nf, root, crate, *fns = sys.argv[1:]
    names = json.load(open(os.path.join(nf, 'crates', crate, 'names.json')))
    rust = rust_names(root)
    CL.update(clause_names(root)); RP.update(ref_params(root))
    log = []
    base = os.path.join(root, 'crates', crate, 'proofs')
    for p in sorted(glob.glob(base + '/**/Proof.antt', recursive=True)):
        f = os.path.relpath(os.path.dirname(p), base)
        if fns and f not in fns: continue
        convert(root, crate, f, names, rust, log)
    print('\n'.join(log))
main()
