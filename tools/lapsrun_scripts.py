#!/usr/bin/env python3
"""Writes the scripts that lapsrun is tried with into a folder: lapsrun_scripts.py FOLDER"""
import sys

folder = sys.argv[1] + "/"


def put(name, *lines, raw=None):
    data = raw if raw is not None else b"call,value\n" + b"".join(l.encode()+b"\n" for l in lines)
    with open(folder + name + '.txt', 'wb') as file:
        file.write(data)
alloct = bytes(range(256)).hex()
put('worked','O,0021','I,7e','R,1','X,')
put('all_octets','N,2','O,0021','I,'+alloct,'C,','O,0057','I,'+alloct[:256],'I,'+alloct[256:],'C,','O,fe01','I,'+bytes(range(255,-1,-1)).hex(),'C,','N,1','O,0021','I,','C,','O,0021','C,')
put('escapes_inside','O,0021','I,7ddd','C,','O,0057','I,7d','I,dd','C,','O,fe01','I,7d5e7d5d7e7ddd7dddddd7e7e7d7d','C,',
    'O,0021','R,1','I,7d','R,1','I,dd','R,2','C,','O,0021','I,7ddd7ddd7ddd','R,3','X,','O,0021','I,dd','S,')
put('check_stuffed','O,0021','I,07','C,','O,0021','I,27','S,','O,0021','I,27','C,','O,0021','I,07','S,','O,0021','I,07','X,')
put('spoiled_aborted','O,0021','S,','O,0021','X,','O,0057','I,4500','S,','N,3','O,fe01','I,0102030405060708','R,5','X,','O,0021','I,60','C,','N,0','O,0021','R,0','I,','S,','O,fe01','R,1','X,','O,0021','I,00','C,')
big=lambda n: 'I,'+('5a7d7e00'*n)[:2*n]
put('refusals','O,1234','O,0000','O,ffff','O,0100','O,2100','N,8193','N,65535','N,8192','O,0021','R,4097','R,65535','R,4096',big(1601),big(1600),'I,00','I,','C,','O,0057',big(800),big(801),'I,7e','I,'+'7e'*799,'I,ff','R,4097','S,','O,fe01','I,01','X,')
put('longest', 'O,fe01','I,'+'7e'*1600,'C,','O,fe01','I,'+'00'*1600,'I,00','S,','O,0021',big(1599),'I,7d','X,')
unfit=['', 'O','O,','O,0','O,002','O,00210','O,0021 ',' O,0021','O,002A','O,FE01','O,00g1','O,0x21','O;0021','O0021','o,0021','OO,0021','Q,','?,31,,-,-,-,-',',','A,0021','0,0021',
 'R,1','I,00','C,','X,','S,',
 'N','N,','N,00','N,01','N,000001','N,65536','N,99999','N,4294967296','N,18446744073709551616','N,340282366920938463463374607431768211456','N,-1','N,+1','N, 1','N,1 ','N,1x','N,a','N,1,','call,value',
 'N,0','N,9','N,10','O,0021',
 'O,0021','N,1','N,0','I','I,0','I,000','I,0g','I,AB','I,aB','I,7E','I, 00','I,00 ','I,00,','I,00\r','i,00','R','R,','R,00','R,01','R,65536','R,70000','R,1.0','R,1\r','r,1','R,0','R,1',
 'C','C,0','C, ','C,,','C,\r','c,','X','X,0','X,00','x,','S','S,0','S,7e','s,','I,0a','C,','C,','X,','S,','I,','R,0','O,0021','X,','X,']
put('unfit_lines',*unfit)
put('state', 'I,00','R,1','C,','X,','S,','O,0021','O,0021','O,1234','N,1','N,8193','I,01','O,0057','N,0','C,','C,','I,02','O,1234','I,02','N,1','O,0057','X,','X,','R,0','N,8193','S,','O,fe01','S,','S,')
put('unended', raw=b"call,value\nO,0021\nI,00\nC,")
put('unended_after_unfit', raw=b"call,value\nQ,\nN,1")
put('zero_octets', raw=b"call,value\nO,0021\n\x00\nI,\x00\n\xff,\n\x80\x80\nC,\n\n\n")
put('empty', raw=b"")
put('no_head', raw=b"O,0021\nC,\n")
put('head_alone', raw=b"call,value\n")
put('head_unended', raw=b"call,value")
put('head_with_return', raw=b"call,value\r\nO,0021\r\n")
put('head_upper', raw=b"Call,value\nO,0021\nC,\n")
put('head_second', raw=b"\ncall,value\nO,0021\nC,\n")
put('head_longer', raw=b"call,value,\nO,0021\nC,\n")
put('head_and_blank_end', raw=b"call,value\n\n")
# the most octets of a script, and one more
def limit(n, tail=b''):
    pre=b"call,value\nN,10\nO,0021\n"; post=b"C,\n"+tail
    k=n-len(pre)-len(post)-3
    return pre+b"I,"+(b"7e"*(k//2))+(b"" if k%2==0 else b"7")+b"\n"+post
a=limit(16384, b"N,10\n"); assert len(a)==16384
b=limit(16385); assert len(b)==16385
assert (len(a)-len(b"call,value\nN,10\nO,0021\n")-len(b"C,\nN,10\n")-3)%2==0
assert (len(b)-len(b"call,value\nN,10\nO,0021\n")-len(b"C,\n")-3)%2==0
put('limit_16384', raw=a); put('limit_16385', raw=b)
put('limit_16384_unended', raw=a[:-1]+b"0")
c=b"call,value\nO,0021\nI,01\nC,\n"; c+=b"\n"*(16385-len(c)); put('limit_16385_blank_lines', raw=c)
