import sys,subprocess,os,glob
os.chdir(sys.argv[1])
edits=sys.argv[2:]
for e in edits:
    c=e.split("/")[1]
    f=None; saved={}; o=None
    for l in open(e).read().split("\n"):
        if l.startswith("file: "): f=f"crates/{c}/{l[6:]}"
        if l.startswith("old: "): o=l[5:]
        if l.startswith("new: "):
            t=open(f).read(); saved.setdefault(f,t)
            assert t.count(o)==1,(e,o)
            open(f,'w').write(t.replace(o,l[5:],1))
    r=subprocess.run(["rt","dev",c],capture_output=True,text=True,env=dict(os.environ,RT_CUT="600"))
    out=r.stdout+r.stderr
    errs=[x for x in out.split("\n") if "error" in x or "unsolved" in x or "not admitted" in x]
    ok="logic=proved" in out.split("crate "+c)[-1]
    print(("PROVED!! " if ok else "refused  ")+e+"\n      "+(errs[0][:420] if errs else out[-300:]),flush=True)
    for f,t in saved.items(): open(f,'w').write(t)
