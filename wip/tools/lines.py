import os,sys,glob
root=sys.argv[1]
tot=[0]*5
rows=[]
for c in sorted(os.listdir(root+'/crates')):
    b=f'{root}/crates/{c}'
    def n(fs): return sum(open(f,encoding='utf-8').read().count('\n') for f in fs)
    src=n(glob.glob(b+'/src/**/*.rt',recursive=True))
    specs=n(glob.glob(b+'/specs/**/*.antt',recursive=True))
    allp=glob.glob(b+'/proofs/**/*.antt',recursive=True)
    fp=[f for f in allp if os.path.basename(f)=='Proof.antt']
    laws=n([f for f in allp if f not in fp])
    e=len(glob.glob(b+'/must-fail/*.edit'))
    rows.append((c,src,specs,laws,n(fp),e))
for r in rows: print(f"{r[0]} {'/'.join(map(str,r[1:]))}",end=', ')
lib=[r for r in rows if not r[0].startswith('test_') and not r[0].endswith('_examples') or r[0]=='starred_examples']
print(); print('all', [sum(r[i] for r in rows) for i in range(1,6)])
