# python3 compact_cycle.py FILE: in a printed cycle proof, name each member's tuple of readings once
import sys,re
p=sys.argv[1]; s=open(p).read()
aliases=re.findall(r'^use \S+ as (\S+)-lts$',s,re.M)
defs={}
for m in aliases:
    e=re.escape(m)
    mt=re.search(e+r'-lts\.Need-\S+ (\((?:[^()]|\n)*?\))\s+\('+e+r'-at t\)',s)
    tup=re.sub(r'\s+',' ',mt.group(1)).replace('( ','(').replace(', )',')')
    defs[m]=tup
    pat=re.compile(r'('+e+r'-lts\.(?:Need-\S+|spec)\s+)\((?:[^()]|\n)*?\)(\s+\('+e+r'-at t\))')
    s=pat.sub(lambda k:k.group(1)+f'({m}-calls t)'+' '+k.group(2).strip(),s)
    # join the rest of a signature on one line
    s=re.sub(r'('+e+r'-lts\.Need-\S+ \('+e+r'-calls t\) \('+e+r'-at t\))\s+('+e+r'\.Post)\s+('+e+r'-Inv-loop)\s+('+e+r'-μ-loop)',r'\1 \2 \3 \4',s)
decl=''.join(f'abbrev {m}-calls : ℕ → {m}-lts.Claims\n{m}-calls t = {t}\n\n' for m,t in defs.items())
i=s.index('\n-- src')+1
s=s[:i]+decl+s[i:]
s=re.sub(r'^-- src/.*\n','',s,flags=re.M)
# a hole on a line of its own
s=re.sub(r'=\n\s+\?$','= ?',s,flags=re.M)
open(p,'w').write(s)
