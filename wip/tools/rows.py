import re,glob,sys
m={"Sizes":"LentSizes","Stops":"HoldsStops","Aligned":"AlignedBlock","Apart":"RowsApart","Closed":"BlockClosed","Place":"InnerPlace","Held":"TotalsBounded","Found":"LastReached","Halved":"MiddleFixed","Solved":"BlockSolved","Ended":"EndsFixed","Ran":"LeftByMethod","Row":"RowHolds"}
for f in glob.glob(sys.argv[1]+'/**/*',recursive=True):
    if not f.endswith(('.antt','.rt','.edit')): continue
    s=open(f).read(); o=s
    out=[]
    for line in s.split("\n"):
        # comments in prose keep their words
        code,sep,com=line,'',''
        i=line.find('-- ') if f.endswith('.antt') else line.find('// ')
        if i>=0: code,com=line[:i],line[i:]
        for a,b in m.items():
            code=re.sub(rf"(?<![\w.·`]){a}(?![\w·])",b,code)
        out.append(code+com)
    s="\n".join(out)
    s=s.replace("specs.specs.RowHolds","specs.specs.Row").replace("pub mod RowHolds","pub mod Row")
    if s!=o: open(f,'w').write(s)
