#!/usr/bin/env python3
# goals.py LOG [FILTER]: each goal of a holes log, without its 'computed from'
import re,sys
t=open(sys.argv[1]).read().split('\n')
f=sys.argv[2] if len(sys.argv)>2 else ''
i=0
while i<len(t):
    m=re.match(r'(\S*Proof\.antt):\d+:\d+: goal \? in `(.*)`',t[i])
    if m and f in m.group(1):
        print('##',m.group(1).split('proofs/')[1],m.group(2)); i+=1
        while i<len(t) and '(computed from' not in t[i] and not t[i].startswith('/'):
            print(re.sub(r'(Rattle·\w+(·\w+)?\.(specs|proofs)\.|mathlib\.Core\.\w+\.|Prim\.Native\.Nat\.|lib\.ListN\.|lts\.After|specs\.\w+\.)','',t[i])[:300]); i+=1
    else: i+=1
