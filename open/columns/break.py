#!/usr/bin/env python3
"""break.py [WIDTH] FILE..: breaks clause lines of .rt files that are longer than WIDTH (120) columns. Only blanks change: it stops where they don't alone."""
import re,sys
args=sys.argv[1:]
W=int(args.pop(0)) if args and args[0].isdigit() else 120
OPEN='([{'; CLOSE=')]}'
def points(s):
    """(position, depth, rank) where a line may end: the text behind begins the next one. rank: lower is better."""
    d=0; out=[]; i=0; instr=False
    while i<len(s):
        ch=s[i]
        if ch in OPEN: d+=1
        elif ch in CLOSE: d-=1
        elif ch==' ' and i>0:
            before=s[:i]; after=s[i+1:]
            if after[:1] in '{}' or len(after.strip())<14: i+=1; continue
            if before.endswith(';'): out.append((i,d,1)); i+=1; continue
            if before.endswith('→') or re.search(r'(^|\s)in$',before): out.append((i,d,0))
            elif after.startswith(('⊎ ','× ')): out.append((i,d,1))
            elif before.endswith('.') and re.search(r'λ [^().]*\.$',before): out.append((i,d,3))
            elif re.match(r'(≡|≤|<|◌|\+\+|∷|↔) ',after): pass
            elif re.search(r'(≡|≤|<|\+\+|∷|↔|λ|:|=|,|\+|-|\*)$',before) or re.match(r'(≡|≤|<|\+\+|∷|↔|:|=|\+|-|\*|\.) ',after): pass
            elif re.search(r'(^|[\s(])let$',before) or re.search(r'λ( \w+)*$',before): pass
            else: out.append((i,d,2))
        i+=1
    return out
def split(line,indent,first):
    """the line in pieces of at most W columns"""
    out=[]; cur=line; ind=len(line)-len(line.lstrip(' '))
    cont=' '*(ind+4 if first else ind)
    while len(cur)>W:
        base=len(cur)-len(cur.lstrip(' '))
        ps=[p for p in points(cur) if base+16<=p[0]<=W]
        if not ps: break
        # outermost first, then the kind, then the farthest; but no line shorter than 40 columns where another will do
        lo=[p for p in ps if p[0]>=base+18] or ps
        m=min((p[1],p[2]) for p in lo if p[2]<2) if any(p[2]<2 for p in lo) else None
        best=None
        if m is not None:
            c=[p for p in lo if (p[1],p[2])==m or (p[1]==m[0] and p[2]<2)]
            best=max(c,key=lambda p:p[0])
        # an argument at a lower depth than any arrow
        c2=[p for p in lo if p[2]>=2]
        if best is None and c2:
            dm=min(p[1] for p in c2); best=max([p for p in c2 if p[1]==dm],key=lambda p:p[0])
        if best is None: break
        out.append(cur[:best[0]].rstrip()); cur=cont+cur[best[0]+1:].lstrip()
    out.append(cur); return out
for f in args:
    L=open(f,encoding='utf8').read().split('\n'); out=[]; inc=False; depth=0; started=False
    for l in L:
        s=l.strip()
        if not inc and re.match(r'\s+(requires|ensures)\b.*\{',l) or (not inc and re.match(r'\s*(requires|ensures)\b',l) and '{' in l):
            inc=True; depth=0; head=True
        if inc:
            depth+=sum(l.count(c) for c in '{')-sum(l.count(c) for c in '}')
            out+= split(l,0,head) if len(l)>W and not s.startswith('//') else [l]
            head=False
            if depth<=0: inc=False
        else: out.append(l)
    old='\n'.join(L); new='\n'.join(out)
    assert re.sub(r'\s+','',old)==re.sub(r'\s+','',new),f
    if new!=old: open(f,'w',encoding='utf8').write(new); print(f)
