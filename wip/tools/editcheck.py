import sys,glob
bad=0
for e in sorted(glob.glob("crates/*/must-fail/*.edit")):
    c=e.split("/")[1]; f=None; texts={}
    for l in open(e).read().split("\n"):
        if l.startswith("file: "): f=l[6:]
        if l.startswith("old: "):
            p=f"crates/{c}/{f}"
            try: t=texts.get(p) or open(p).read()
            except Exception as x: print(e,"NO FILE",p); bad+=1; continue
            n=t.count(l[5:])
            if n!=1: print(e,f,n,repr(l[5:])); bad+=1
            o=l[5:]
        if l.startswith("new: "):
            p=f"crates/{c}/{f}"
            t=texts.get(p) or open(p).read()
            texts[p]=t.replace(o,l[5:],1)
print(bad,"bad")
