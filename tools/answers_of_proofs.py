#!/usr/bin/env python3
"""Turns a function's proof of the older Rattle to today's files, as it did every function's of this repository.

usage: tools/answers_of_proofs.py CRATE NAMES.json [FUNCTION..]      CRATE is a crate's folder, as crates/framing

The older files, proofs/F/Proof.antt, answer each goal by a lemma of the type tie.Need-GOAL, in the spelling
that the toolchain's port and tools/spell_names.py left them in. NAMES.json has the old and the new name of
each goal, step and field: `rt check --generated FOLDER --old-names` in the crate's folder writes it, once
all crates below prove. For each such file it writes Invariants.antt, with the invariants and measures of the
loops, and Answers.antt, with the answers but those that the check finds by itself; helpers over a place of
the code become lets of the answers that cite them. It prints what it could not place, and the checks say the
rest: ways into a join (`elim c.STEP.branch [..]`), patterns with several names, helpers with a dash in a
variable. It goes when .wip-chains.patch has landed: nothing else is in the older form.
"""

import json,os,re,sys
NAME = r'[^\s(){}.;,@"«»]+'
crate=sys.argv[1]; names=json.load(open(sys.argv[2]))
only=sys.argv[3:] 
cn=os.path.basename(os.path.normpath(crate))
def norm(s): return s.replace('_','-')
KINDS=[('overflow-',''),('slice-bounds-','part-'),('bounds-',''),('nonzero-','')]
def load(fn):
    pre=f'Rattle-{cn}-proofs.{fn}.Lts'
    return names.get(pre)
def decls(text):
    """Blocks separated by blank lines: (comment, body)."""
    return re.split(r'\n\n+', text.strip('\n'))
class Table(dict):
    """The repository's own names with dashes, each with its spelling in snake case, if some text has that."""
    def __init__(self):
        here=os.path.dirname(os.path.dirname(os.path.abspath(__file__)))
        words=set()
        for d,ds,fs in os.walk(os.path.join(here,'crates')):
            ds[:]=[x for x in ds if x!='out']
            for f in fs:
                if f.endswith('.antt') and f not in ('Proof.antt','Answers.antt','Invariants.antt'):
                    words.update(re.findall(NAME,open(os.path.join(d,f)).read()))
        self.words=words
    def get(self,name,default=None):
        new=name.replace('-','_')
        return new if new in self.words else default
    def __contains__(self,name): return self.get(name) is not None
    def __getitem__(self,name): return self.get(name,name)
TABLE=Table()
total=0; left=[]
for d,ds,fs in os.walk(os.path.join(crate,'proofs')):
    ds.sort()
    if 'Proof.antt' not in fs: continue
    p=os.path.join(d,'Proof.antt')
    text=open(p).read()
    text=re.sub(r"(?<=[A-Za-z]\.)([a-z][\w']*(?:-[\w']+)+)", lambda m: TABLE.get(m[1],m[1]) if re.search(r"(?<![\w.])[A-Z]\w*\.$", text[:m.start()][-40:]) else m[1], text)
    if 'tie' not in text: 
        left.append((p,'no tie')); continue
    fn=os.path.relpath(d,os.path.join(crate,'proofs')).replace('/','.')
    if only and fn.split('.')[-1] not in only: continue
    j=load(fn)
    if not j or 'places' not in j:
        left.append((p,'no names')); continue
    places={pl[0]:pl for pl in j['places']}
    newplace=dict(zip([pl[0] for pl in j['places']], j['places_by_name']))
    byn={norm(k):k for k in places}
    def chain(pl):
        out=[]
        if pl and pl.endswith('-unread') and pl not in places: pl=pl[:-7]
        while pl:
            out.append(pl); pl=places[pl][1]
        return out
    need={}
    for i,(o,n) in enumerate(j['needs']): need[norm(o)]=(n,j['asked_at'][i][0],i)
    # order in tie.spec
    m=re.search(r'tie\.spec\s+([^()]*)\)', text)
    order=[]
    if m:
        order=[w for w in m[1].split() if not w.startswith(('invariant-','decreases-'))]
    # identity helpers between places, and names for places
    ids=re.findall(r"(?m)^abbrev (\S+) :\s*tie\.[^\n→]*→\s*tie\.[^\n]*\n\1 (\w+) = ",text)
    for nm,v in ids:
        mm=re.search(r"(?m)((?:^--[^\n]*\n)*)^abbrev "+re.escape(nm)+r" :[^\n]*\n"+re.escape(nm)+r" (\w+) = ([^\n]*)\n+",text)
        if not mm: continue
        text=text[:mm.start()]+text[mm.end():]
        text=re.sub(r"\("+re.escape(nm)+r" ([\w.]+)\)",r"\1",text)
        text=re.sub(r"(?<![\w'-])"+re.escape(nm)+r" ([\w.]+)",r"\1",text)
    def unalias(b):
        for _ in range(6):
            m=re.search(r"let (\w+'?)(?: : [^=\n]*)? = (c(?:\.before)*)\s+in\s*",b)
            if not m: break
            b=b[:m.start()]+b[m.end():]
            b=re.sub(r"(?<![\w.'-])"+re.escape(m[1])+r"(?![\w'-])",m[2],b)
        return b
    blocks=[unalias(b) for b in decls(text)]
    # header: first block has comments + use
    head=blocks[0].split('\n')
    comments=[]; uses=[]
    for l in head:
        if l.startswith('--') and not uses: comments.append(l)
        elif l.startswith('use ') or (uses and (l.startswith(' '))): uses.append(l)
        else: comments.append(l) if l.startswith('--') else uses.append(l)
    uses=[u for u in uses if '.Statement.{statement}' not in u and not re.search(r'\.Tie as tie$',u)]
    inv=[]; out=[]; used=[]; helpers={}; pending=[]; moved=[]; movednames=[]
    def place_named(x):
        if x not in used: used.append(x)
        return x
    wl=[]
    problems=[]
    def rewrite(body, place):
        anc=chain(place) if place in places or (place and place.endswith('-unread')) else list(places)[::-1]
        # candidate steps: nearest first
        steps=[]
        for a in anc:
            pl=places[a]; idx=[x[0] for x in j['places']].index(a)
            steps.append((norm(pl[2][0]), pl[2][1], dict(pl[4]), j['arms'][idx], pl[3]))
        alias={'c'}
        for m in re.finditer(r"let (\w+'?)(?: : [^=]*)? = (\w+)((?:\.before)*)\s+in", body):
            if m[2] in alias: alias.add(m[1])
        body=re.sub(r'(?<![\w\'-])(\w+)((?:\.before)+)(?![\w\'-])', r'\1', body)
        body=re.sub(r'(\))((?:\.before)+)(?![\w\'-])', r'\1', body)
        def one(m):
            var,step,rest=m[1],m[2],m[3] or ''
            k=norm(step)
            if re.search(r'_[A-Z]',step): k=norm(step.lower())
            if var not in alias: return m[0]
            if k in ('args','requires','ranges','initial','lifetimes'): return m[0]
            parts=rest[1:].split('.') if rest else []
            best=None
            for st in steps:
                if not st[3]: continue
                for nf,os_,path in st[3][2]:
                    if norm(os_)==k and path==parts[:len(path)] and (path or not st[3] is None):
                        if best is None or len(path)>len(best[2]): best=(st[3][0],nf,path)
                if best and best[2]: break
            if best and (best[2] or not [s for s in steps if s[0]==k and s[2]]):
                tail=parts[len(best[2]):]
                return '.'.join([var,best[0],best[1]]+tail)
            hits=[s for s in steps if s[0]==k]
            if not hits: 
                return m[0]
            h=hits[0]
            if rest:
                if parts[0] in h[2]: parts[0]=h[2][parts[0]]
                if parts[0] in ('new','auto') and h[4] in j['params']:
                    ps=j['params'][h[4]]; k2=0; q=1
                    while q<len(parts) and parts[q]=='1': k2+=1; q+=1
                    if q<len(parts) and parts[q]=='0': parts=[parts[0],ps[k2]]+parts[q+1:] if k2<len(ps) else parts
                    elif q>1 and k2==len(ps)-1: parts=[parts[0],ps[k2]]+parts[q:]
                rest='.'+'.'.join(parts)
            return f'{var}.{h[1]}{rest}'
        stepnames={x[0] for x in steps}
        body=re.sub(r"(?<=\.)([a-z][\w']*(?:-[\w']+)+)", lambda m: TABLE[m[1]] if m[1] in TABLE and norm(m[1]) not in stepnames else m[1], body)
        body=re.sub(rf"(?<![\w'.-])(\w+'?)\.([a-z][\w'-]*)((?:\.[\w'-]+)*)", one, body)
        return body
    for b in sorted(blocks[1:], key=lambda b: 0 if re.search(r'(?m)^abbrev (?:invariant|decreases)-',b) else 1):
        lines=b.split('\n')
        cm=[]
        while lines and lines[0].startswith('--'): cm.append(lines.pop(0))
        if not lines: out.append('\n'.join(cm)); continue
        body='\n'.join(lines)
        if 'statement M' in body.split('\n')[0] and re.match(r'pub \S+-spec|pub \S+_spec',body): continue
        m=re.match(r'abbrev ((?:invariant|decreases)-\S+) : tie\.(\S+)\n(?:unfolding[^\n]*\n)?', body)
        if m:
            kind,loop=re.match(r'(invariant|decreases)-(.*)',m[2]).groups()
            L=[x for x in j['loops'] if norm(x[0][0])==norm(loop)]
            if not L: 
                problems.append('loop '+loop); inv.append('\n'.join(cm)+'\n'+body); continue
            L=L[0]; ch=j['changed'][j['loops'].index(L)]
            newname=f'{kind}-{L[0][1]}'
            rest=body[m.end():]
            mm=re.match(rf'{re.escape(m[1])} ([^=]*)=', rest)
            if not mm:
                problems.append('invariant form'); inv.append(body); continue
            params=mm[1].split()
            vs=L[1]
            sub={}
            if len(params)!=len(vs)+sum(ch):
                problems.append(f'{newname}: params {params} vs {vs} {ch}')
            for a,v,c in zip(params,vs,ch): sub[a]=f'l.initial.{v}' if c else f'l.{v}'
            for a,v in zip(params[len(vs):],[v for v,c in zip(vs,ch) if c]): sub[a]=f'l.{v}'
            sub.pop('_',None)
            rb=rest[mm.end():]
            rb=re.sub(r"(?<![^\s(){};,\[])([\w₀'-]+)(?! =\s)(?=[\s.)};,\]]|$)", lambda q: sub.get(q[1],q[1]), rb)
            unf=re.search(r'\n(unfolding[^\n]*)\n',m[0])
            inv.append('\n'.join(cm+[f'abbrev pub {newname} : goal.{newname}']+([unf[1]] if unf else [])+[f'{newname} l ={rb}']))
            continue
        m=re.match(r'(?:pub )?(\S+) :\s+tie\.Need-(\S+)([^\n]*)\n', body)
        if m:
            nm=m[1]; x=norm(m[2])
            hit=None
            for cand in (norm(nm),x):
                if cand in need: hit=need[cand]; break
            if not hit:
                c=x
                for a,bb in KINDS:
                    if c.startswith(a): c=bb+c[len(a):]; break
                hit=need.get(c)
            if order and nm in order and len(order)==len(j['needs']):
                o=j['needs'][order.index(nm)]
                byorder=(o[1],j['asked_at'][order.index(nm)][0],order.index(nm))
                if hit is None: hit=byorder
                elif hit[0]!=byorder[0]: 
                    problems.append(f'{nm}: {hit[0]} by name, {byorder[0]} by order')
            if not hit and re.search(r'=\s*(search rules|omega arith|tt|refl)\s*$',body): continue
            if not hit:
                problems.append(f'need {nm} ({m[2]}) not found'); out.append('\n'.join(cm)+'\n'+body); continue
            new,place,_=hit
            rest=body[m.end():]
            unf=''
            mu=re.match(r'(unfolding[^\n]*\n)',rest)
            if mu: unf=mu[1]; rest=rest[mu.end():]
            mm=re.match(rf'{re.escape(nm)}((?: \S+?)*?) =',rest)
            if not mm:
                problems.append(f'{nm}: form'); out.append(body); continue
            ps=mm[1].split()
            if ps and ps[-1] in('κs','_') and len(ps)>1: ps=ps[:-1]
            rb=rest[mm.end():]
            if rb.strip() in('search rules','omega arith','tt') and not unf: continue
            rb=rewrite(rb,place)
            out.append('\n'.join(cm+[f'pub {new} : goal.{new}']+([unf.rstrip('\n')] if unf else [])+[' '.join([new]+ps)+' ='+rb]))
            continue
        # helper
        pm=re.search(r'tie\.((?:After|Then|Else|In|At|Joined|Start)[^\s()]*?)(?=[\s()])',body)
        place=None
        if pm:
            place=byn.get(norm(pm[1]))
            hm=re.match(r'(?:abbrev )?(\S+) :\s*\(c : tie\.[^()]*\)\s*→?\s*(.*?)\n(unfolding[^\n]*\n)?\1 c((?: \S+?)*?) =(.*)$', body, re.S)
            if hm and not body.startswith('abbrev'):
                helpers[hm[1]]=(hm[2].strip(), hm[3] or '', hm[4].split(), hm[5].strip(), place)
                pending.append((len(out),hm[1],cm,body))
                out.append(('H',hm[1]))
                continue
            body=re.sub(r'tie\.((?:After|Then|Else|In|At|Joined|Start)[^\s()]*)((?: invariant-\S+?| decreases-\S+?)*)(?=[\s)])', lambda q: place_named(newplace.get(byn.get(norm(q[1]),''),'?'+q[1])), body)
            problems.append('helper over '+pm[1])
            body=rewrite(body,place)
        else:
            hn=re.match(r'(?:pub |abbrev |unfoldable |record |data )*(\S+)',body)
            if hn and re.search(r'(?<![^\s(){},;])'+re.escape(hn[1])+r'(?![^\s(){},;.])',' '.join(inv)):
                moved.append('\n'.join(cm+[re.sub(r'^(?!pub )','pub ',body) if not body.startswith('abbrev') else re.sub(r'^abbrev ','abbrev pub ',body)])); movednames.append(hn[1]); continue
        out.append('\n'.join(cm+[body]))
    # inline the helpers over a place
    def W(n): return r"(?<![^\s(){},;\[])"+re.escape(n)+r"(?![^\s(){},;.\]])"
    def inline(txt, lets):
        """Replaces calls of helpers by their names, and adds to lets (name -> text), dependencies first"""
        unf_=[]
        for h,(T,unf,ps,E,pl) in helpers.items():
            pat=re.compile(W(h)+r" c(?:\.before)*(?![\w'.-])")
            if not pat.search(txt): continue
            txt=re.sub(r"\("+re.escape(h)+r" c(?:\.before)*\)", lambda m: h, txt)
            txt=pat.sub(lambda m: h, txt)
            if h not in lets:
                t2=rewrite(T,pl); e2=rewrite(E,pl)
                t2,u=inline(t2,lets); unf_+=u
                e2,u=inline(e2,lets); unf_+=u
                lam=('λ '+' '.join(ps)+'. ') if ps else ''
                lets[h]='    let '+h+' : '+' '.join(t2.split())+' =\n        '+lam+e2.replace('\n','\n    ')+' in\n'
            if unf: unf_+=unf.split()[1:]
        return txt,unf_
    new=[]
    for o in out:
        if isinstance(o,tuple): continue
        lets={}
        txt,u=inline(o,lets) if helpers else (o,[])
        if lets:
            m=re.search(r"(?m)^[^\n:]*? c(?: [^\n=]*)? =[ \n]\s*",txt)
            if not m: problems.append('no place for lets')
            else: txt=txt[:m.end()].rstrip()+'\n'+''.join(lets.values())+'    '+txt[m.end():]
        if u:
            m=re.search(r'\nunfolding ([^\n]*)\n',txt)
            if m:
                have=m[1].split(); add=[x for x in dict.fromkeys(u) if x not in have]
                txt=txt[:m.end()-1]+''.join(' '+x for x in add)+txt[m.end()-1:]
            else:
                i=re.search(r'^(?!--)[^\n]*\n',txt,re.M).end()
                txt=txt[:i]+'unfolding '+' '.join(dict.fromkeys(u))+'\n'+txt[i:]
        new.append(txt)
    out=new
    for h in helpers: problems.append(f'inlined {h}: {sum(len(re.findall(W(h),o)) for o in new)} left')
    def emit(fn2,parts,mod):
        u=[x for x in uses]
        txt='\n'.join(comments+u+[f'use Rattle.{cn}.proofs.{fn}.{mod} as goal']+([f'use Rattle.{cn}.proofs.{fn}.{mod}.{{{", ".join(used)}}}'] if used and mod=='Goals' else []))+'\n'
        for b in parts: txt+='\n'+b.rstrip()+'\n'
        open(os.path.join(d,fn2),'w').write(txt)
    if inv: emit('Invariants.antt',moved+inv,'Given')
    if movednames: uses.append(f'use Rattle.{cn}.proofs.{fn}.Invariants.{{{", ".join(movednames)}}}')
    if any(re.search(r'\S',o) for o in out) : emit('Answers.antt',out,'Goals')
    os.remove(p)
    total+=1
    for q in problems: print(f'{fn}: {q}')
print('turned',total)
for l in left: print('left',*l)
