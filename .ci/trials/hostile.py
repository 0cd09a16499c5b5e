"""hostile.py PROGRAM [FILE..]: deep, wide and broken JSON, and the files; compares the program's answers with reader.py's."""
import os, subprocess, sys

sys.set_int_max_str_digits(0)
sys.path.insert(0, os.path.dirname(os.path.realpath(__file__)))
import reader

TEXTS = [b'['*127+b']'*127,b'['*128+b']'*128,b'{"a":'*127+b'1'+b'}'*127,b'{"a":'*128+b'1'+b'}'*128,b'['*100000,b'{"a":'*100000,b'['+b'1,'*300000+b'1]',b'{'+b','.join(b'"k%d":1'%i for i in range(100000))+b'}',
 b'{"format":1e999,"lanes":[]}',b'{"format":'+b'1'*5000+b',"lanes":[]}',b'{"format":0.'+b'0'*5000+b'1,"lanes":[]}',b'{"format":1e-99999,"lanes":[]}',b'{"format":-0,"lanes":[]}',b'{"format":1.7976931348623159e308,"lanes":[]}',b'{"format":1.7976931348623157e308,"lanes":[]}',
 b'{"format":1,"lanes":[["\\ud800"]]}',b'{"format":1,"lanes":[["\\ud834\\udd1e"]]}',b'{"format":1,"lanes":[["\\udd1e\\ud834"]]}',b'{"format":1,"lanes":[["\\ud834\\u0041"]]}',b'\xef\xbb\xbf{"format":1,"lanes":[]}',b'\xff\xfe{\x00',b'{"format":1,"lanes":[]}\x00',b'',b' ',b'\x00',b'{"format":1,"lanes":[]} x',b'{"format":1,"lanes":[],}',b'{"format":1,"lanes":[[]],"lanes":7}',b'{"\\u0066ormat":1,"lanes":[]}',b'{"format":1,"format\\u0000":1,"lanes":[]}',b'{"format":1,"lanes":[]}\xc3',b'"'+b'a'*1000000+b'"',b'\xed\xa0\x80',b'{"format":1,"lanes":["\xed\xa0\x80"]}',b'{"format":1,"lanes":["\xc0\x80"]}',b'{"format":1,"lanes":["\xf4\x90\x80\x80"]}',b'1',b'-',b'tru',b'nullx',b'{"format":18446744073709551617,"lanes":[]}']
for name in sys.argv[2:]:
    with open(name, "rb") as it:
        TEXTS.append(it.read().strip().replace(b"\n", b" "))
bad = 0
for text in TEXTS:
    got = subprocess.run([sys.argv[1], "lines"], input=text, capture_output=True).stdout.decode().split("\n")[0]
    want = reader.read(text)
    if got != want:
        bad += 1
        print(text[:80], len(text), "got", got[:80], "want", want[:80])
print(len(TEXTS), "texts,", bad, "differ")
sys.exit(1 if bad else 0)
