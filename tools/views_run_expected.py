# An independent model of the views: it wrote the cases of crates/views_run and the output expected of them. Run it at the top
# of the repository, and then `rt fmt` in crates/views_run.
import zlib, struct
# ---- an independent model
def crc(b): return struct.pack('<I', zlib.crc32(b))
def osum(b):
    s=0
    for i in range(0,len(b),2):
        s+=b[i]<<8|b[i+1]
        s=(s&0xffff)+(s>>16)      # end-around carry at every addition
    return s
def view(sapi, b):
    n=len(b)
    if sapi==0xfe01:
        if not 64<=n<=1518: return 21
        if crc(b[:-4])!=b[-4:]: return 22
        return ('mac',[(0,6),(6,6),(12,2),(14,n-18),(n-4,4)])
    if sapi==0x21:
        if n<20: return 24
        if b[0]>>4!=4: return 23
        h=(b[0]&15)*4
        if h<20 or h>n: return 24
        t=b[2]<<8|b[3]
        if t<h or t>n: return 25
        if osum(b[:h])!=0xffff: return 26
        return ('ipv4',[(0,20),(20,h-20),(h,t-h),(t,n-t)])
    if sapi==0x57:
        if n<40: return 24
        if b[0]>>4!=6: return 23
        p=b[4]<<8|b[5]
        if p>n-40: return 25
        return ('ipv6',[(0,40),(40,p),(40+p,n-40-p)])
    return 27
def line(sapi,b):
    v=view(sapi,b)
    if isinstance(v,int): return '%04x %d: %d'%(sapi,len(b),v)
    return '%04x %d: %s %s'%(sapi,len(b),v[0],' '.join('%d+%d'%p for p in v[1]))
# ---- inputs
def ipv4(first, total, options=b'', sum_ok=True, tail=b'', spoil=0, over=None):
    h=bytearray(struct.pack('>BBHHHBBH4s4s',first,0,total,0x1c46,0x4000,64,6,0,bytes([172,16,10,99]),bytes([172,16,10,12]))+options)
    s=osum(bytes(h[:over] if over else h)) if (len(h)%2==0) else 0
    c=(0xffff-s)&0xffff
    h[10:12]=struct.pack('>H',(c+spoil)&0xffff)
    return bytes(h)+tail
def ipv6(first,payload,tail):
    return struct.pack('>BBHHBB',first,0,0,payload,17,64)+bytes(range(32))+tail
small=[]  # (sapi, bytes, comment)
def add(sapi,b,c): small.append((sapi,b,c))
add(0x21,b'','nothing at all')
add(0x21,ipv4(0x65,20)[:19],'19 octets, and version 6: the header comes first')
add(0x21,ipv4(0x64,20),'20 octets, version 6, and a header length of 16: the version comes first')
add(0x21,ipv4(0x44,15),'a header length of 16, and a total of 15: the header comes first')
add(0x21,ipv4(0x46,20),'a header length of 24 in 20 octets')
add(0x21,ipv4(0x45,19,spoil=1),'a total of 19, and a wrong sum: the length comes first')
add(0x21,ipv4(0x45,21),'a total of 21 in 20 octets')
add(0x21,ipv4(0x45,20,spoil=1),'a wrong sum')
add(0x21,ipv4(0x45,20),'a bare header')
add(0x21,ipv4(0x45,24,tail=b'\x01\x02\x03\x04'),'no options, four octets of payload')
add(0x21,ipv4(0x45,22,tail=b'\x01\x02\x03\x04'),'two octets of payload, two of rest')
opt=b'\x94\x04\x00\x01'
add(0x21,ipv4(0x46,23,options=opt),'a total of 23 under a header of 24')
add(0x21,ipv4(0x46,24,options=opt),'options, and no payload')
add(0x21,ipv4(0x46,27,options=opt,tail=b'\x05\x06\x07\x08'),'options, payload and rest')
add(0x21,ipv4(0x46,24,options=opt,over=20),'right over 20 octets alone')
add(0x21,ipv4(0x4f,60,options=bytes([255]*40)),'the longest header')
add(0x57,b'','nothing at all')
add(0x57,ipv6(0x40,0,b'')[:39],'39 octets, and version 4: the header comes first')
add(0x57,ipv6(0x40,1,b''),'version 4, and a payload of 1 beyond: the version comes first')
add(0x57,ipv6(0x60,1,b''),'a payload of 1 where none follows')
add(0x57,ipv6(0x60,0,b''),'an empty payload')
add(0x57,ipv6(0x6f,0,b'\x01'),'an empty payload, and one octet of rest')
add(0x57,ipv6(0x60,2,b'\x01\x02'),'two octets of payload')
add(0x57,ipv6(0x60,3,b'\x01\x02'),'three where two follow')
add(0x57,ipv6(0x60,1,b'\x01\x02'),'one of payload, one of rest')
add(0x20,b'','no view, nothing at all')
add(0xfe02,ipv4(0x45,20),'no view of a good packet')
add(0,b'\x60','no view')
def pattern(n): return bytes(i%251 for i in range(n))
macs=[]
for n,ok in ((63,1),(63,0),(64,0),(64,1),(65,1),(1517,1),(1518,0),(1518,1),(1519,1),(1519,0)):
    b=pattern(n-4); c=crc(b)
    if not ok: c=c[:3]+bytes([c[3]^1])
    macs.append((n,c,b+c))
# check octets the other way round
b=pattern(60); c=crc(b)[::-1]; macs.append((64,c,b+c))
out=[line(0xfe01,b'')]
src=[]
src.append('    show(&rt, 0xfe01, b"")?;')
for n,c,b in macs:
    src.append('    mac_case(&rt, %d, [%s])?;'%(n,', '.join('0x%02x'%x for x in c)))
    out.append(line(0xfe01,b))
def lit(b): return 'b"'+''.join('\\x%02x'%x for x in b)+'"'
blocks={'ipv4_cases':[], 'ipv6_cases':[], 'other_cases':[]}
for sapi,b,c in small:
    k={0x21:'ipv4_cases',0x57:'ipv6_cases'}.get(sapi,'other_cases')
    blocks[k].append((sapi,b,c)); out.append(line(sapi,b))
prog='''// Views at the ends of every range, and where two refusals apply. What is printed was worked out apart from the views;
// the check octets of the MAC cases are those of another CRC-32.
#![tactic(auto)]

ghost use Rattle.std.specs.Prelude.{◌≤◌};

use std::io;
use views::{Part, View, view_of};

fn show_part(rt: &impl Print, part: Part<'_>) -> io::Result<()> {
    let at = part.at;
    let length = part.octets.len();
    print!(rt; " {at}+{length}")
}

fn show(rt: &impl Print, sapi: u16, information: &[u8]) -> io::Result<()> {
    let length = information.len();
    print!(rt; "{sapi:04x} {length}: ")?;
    match view_of(sapi, information) {
        Ok(View::Mac(frame)) => {
            print!(rt; "mac")?;
            show_part(rt, frame.destination)?;
            show_part(rt, frame.source)?;
            show_part(rt, frame.length_or_type)?;
            show_part(rt, frame.payload)?;
            show_part(rt, frame.check)?;
        }
        Ok(View::Ipv4(packet)) => {
            print!(rt; "ipv4")?;
            show_part(rt, packet.header)?;
            show_part(rt, packet.options)?;
            show_part(rt, packet.payload)?;
            show_part(rt, packet.rest)?;
        }
        Ok(View::Ipv6(packet)) => {
            print!(rt; "ipv6")?;
            show_part(rt, packet.header)?;
            show_part(rt, packet.payload)?;
            show_part(rt, packet.rest)?;
        }
        Err(refusal) => {
            let number = refusal.number();
            print!(rt; "{number}")?;
        }
    }
    println!(rt; "")
}

// A frame of octets that count up, with these check octets.
fn mac_case(rt: &impl Print, length: usize, check: [u8; 4]) -> io::Result<()>
    requires { (4 ≤ length) × (length ≤ 1519) }
{
    let mut octets = [0u8; 1519];
    let frame = &mut octets[0..length];
    for (i, octet) in frame.iter_mut().enumerate() {
        *octet = (i % 251) as u8;
    }
    frame[length - 4..].copy_from_slice(&check);
    show(rt, 0xfe01, frame)
}

'''
for k in blocks:
    prog+='fn %s(rt: &impl Print) -> io::Result<()> {\n'%k
    for sapi,b,c in blocks[k]:
        prog+='    // %s\n    show(rt, 0x%04x, %s)?;\n'%(c,sapi,lit(b))
    prog+='    Ok(())\n}\n\n'
prog+='fn main(rt: HostRuntime) -> io::Result<()> {\n'+'\n'.join(src)+'\n'
for k in blocks: prog+='    %s(&rt)?;\n'%k
prog+='    Ok(())\n}\n'
open('crates/views_run/src/main.rt','w').write(prog)
open('crates/views_run/stdout','w').write('\n'.join(out)+'\n')
