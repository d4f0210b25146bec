"""Tries a built dump program on a folder of cases: python3 tests/dump/rows.py DUMP_PROGRAM COMMANDS_PROGRAM FOLDER"""
import glob,subprocess,sys,os
P,D=sys.argv[1],sys.argv[2]; n=bad=0
for f in sorted(glob.glob(sys.argv[3]+'/*.input')):
    b=f[:-6]
    words=open(b+'.words','rb').read()
    ws=words.split(b'\n')[:-1] if words else []
    r=subprocess.run([P]+ws,stdin=open(f,'rb'),capture_output=True)
    st=int(open(b+'.status').read()); n+=1
    if r.returncode!=st:
        bad+=1; print(os.path.basename(b),'status',r.returncode,st); continue
    if st:
        out=open(b+'.output','rb').read() if os.path.exists(b+'.output') else b''
        if r.stdout!=out: bad+=1; print(os.path.basename(b),r.stdout,out)
        continue
    probe=open(b+'.probe','rb').read(); rep=open(b+'.replies','rb').read()
    q=subprocess.run([D],input=r.stdout+probe,capture_output=True)
    k=r.stdout.count(b'\n'); ls=q.stdout.split(b'\n')
    own,last=ls[:k],b'\n'.join(ls[k:])
    w=[(i,l) for i,l in enumerate(own) if not (l==b'ok' or l.startswith(b'ok\t'))]
    if w or last!=rep:
        bad+=1; print(os.path.basename(b),w[:3],[ (a,c) for a,c in zip(last.split(b'\n'),rep.split(b'\n')) if a!=c][:3])
        if w: print(r.stdout.split(b'\n')[w[0][0]])
print(n,'rows',bad,'differ')
