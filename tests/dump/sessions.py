"""Each list is dumped, the dump run, and both books probed: python3 tests/dump/sessions.py DUMP_PROGRAM COMMANDS_PROGRAM FOLDER"""
import glob,subprocess,sys
P,D=sys.argv[1],sys.argv[2]; n=bad=seven=0
for f in sorted(glob.glob(sys.argv[3]+'/*/*.lines')):
    data=open(f,'rb').read()
    r=subprocess.run([P],input=data,capture_output=True); n+=1
    if r.returncode==7: seven+=1; continue
    if r.returncode!=0: bad+=1; print(f,r.returncode); continue
    dump=r.stdout
    # dump of the dump is the dump
    r2=subprocess.run([P],input=dump,capture_output=True)
    q=subprocess.run([D],input=dump,capture_output=True)
    w=[l for l in q.stdout.split(b'\n')[:-1] if not l.startswith(b'ok')]
    if r2.stdout!=dump or w: bad+=1; print(f,w[:2],len(dump)); continue
    # probes on both
    probe=b'set_locale\ten\nset_language\ten\nget_defined_name_list\nget_new_sheet_id\n'
    import re
    cells=[l.split(b'\t')[1:4] for l in dump.split(b'\n') if l.startswith(b'update_cell_with_formula')]
    probe+=b''.join(b'get_cell_formula\t'+b'\t'.join(c)+b'\n' for c in cells)
    for l in (b'en',b'de'):
        pass
    if not data.endswith(b'\n') and data: data+=b'\n'
    a=subprocess.run([D],input=data+probe,capture_output=True).stdout.split(b'\n')[-1-probe.count(b'\n'):]
    b=subprocess.run([D],input=dump+probe,capture_output=True).stdout.split(b'\n')[-1-probe.count(b'\n'):]
    if a!=b: bad+=1; print(f,[(x,y) for x,y in zip(a,b) if x!=y][:2])
print(n,'lists',seven,'with 7',bad,'bad')
