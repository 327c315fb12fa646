A day of two hosts. All of it is one story, with one daemon on each host until the line `end`: eleven
domains come and go, one takes the place of another, and one guest is moved from host to host and
back.

Each line has a request, and after `=>` what it is answered. Under `end` is what was said and what is in
the files; `told of` has the events that listeners were to be told of a domain, which nobody can hear
yet, so they are kept for a later player, and not compared. README.md has all of the notation.

== Two hosts through a day
# An image of a save whose state is packed, which no restore reads: the magic, version 1, a save, the
# guest ran, packed, and neither text nor state.
put-bytes packed.img 56444d49 00000001 00000001 00000001 00000001 00000000 00000000

# A domain is defined. Its name goes with its identifier.
lookup a => 42 a
define a 1 => domain a 00000000-0000-4000-8000-000000000001, id -1
lookup a => domain a 00000000-0000-4000-8000-000000000001, id -1
lookup-uuid 1 => domain a 00000000-0000-4000-8000-000000000001, id -1
lookup-uuid 2 => 42 00000000-0000-4000-8000-000000000002
define a 1 => domain a 00000000-0000-4000-8000-000000000001, id -1
define a 2 => 28 00000000-0000-4000-8000-000000000001
define b 1 => 28 a
define-text <domain> => 27 at 8
define-text <domain type='qemu'><memory>1</memory><os><type>hvm</type></os></domain> => 27 /domain/name
define-text <network><name>a</name></network> => 27 /network
text a 1 => text
  <domain type='qemu'>
    <name>a</name>
    <uuid>00000000-0000-4000-8000-000000000001</uuid>
    <title>The domain a</title>
    <memory unit='KiB'>2048</memory>
    <currentMemory unit='KiB'>2048</currentMemory>
    <vcpu>2</vcpu>
    <os>
      <type>hvm</type>
    </os>
    <on_poweroff>destroy</on_poweroff>
    <on_reboot>restart</on_reboot>
    <on_crash>destroy</on_crash>
  </domain>

# It is started, and goes with its guest once it is not stored any more.
info a 1 => state 5, 2048 of 2048 KiB, vcpus 2
suspend a 1 => 55 shut off
start a 1 => ok
start a 1 => 55 running
info a 1 => state 1, 2048 of 2048 KiB, vcpus 2
define a 1 => domain a 00000000-0000-4000-8000-000000000001, id 1
lookup a => domain a 00000000-0000-4000-8000-000000000001, id 1
undefine a 1 => ok
undefine a 1 => 55 running
set-autostart a 1 1 => 55 running
autostart a 1 => no
destroy a 1 => ok
lookup a => 42 a
destroy a 1 => 42 00000000-0000-4000-8000-000000000001
info a 1 => 42 00000000-0000-4000-8000-000000000001

# The next domain gets its slot, where boots are counted on. Its guest ends at the second command of a start.
define c 3 boot 2 command 2 end => domain c 00000000-0000-4000-8000-000000000003, id -1
start c 3 => 201 boot 2
lookup c => domain c 00000000-0000-4000-8000-000000000003, id -1
start c 3 => ok
lookup c => domain c 00000000-0000-4000-8000-000000000003, id 3

# A guest refuses a command, at a suspend and at a start.
define d 4 boot 1 command 3 refuse => domain d 00000000-0000-4000-8000-000000000004, id -1
start d 4 => ok
suspend d 4 => 9 class 1
info d 4 => state 1, 2048 of 2048 KiB, vcpus 2
suspend d 4 => ok
suspend d 4 => ok
info d 4 => state 3, 2048 of 2048 KiB, vcpus 2
resume d 4 => ok
define r 5 boot 1 command 2 refuse => domain r 00000000-0000-4000-8000-000000000005, id -1
start r 5 => 9 class 1
info r 5 => state 5, 2048 of 2048 KiB, vcpus 2
start r 5 => ok
lookup r => domain r 00000000-0000-4000-8000-000000000005, id 2

# A link is lost, and the boot ends.
define e 6 boot 1 command 3 lost => domain e 00000000-0000-4000-8000-000000000006, id -1
start e 6 => ok
suspend e 6 => 202
info e 6 => state 5, 2048 of 2048 KiB, vcpus 2
start e 6 => ok
lookup e => domain e 00000000-0000-4000-8000-000000000006, id 2

# A guest ends within a suspend.
define f 7 boot 1 command 3 end => domain f 00000000-0000-4000-8000-000000000007, id -1
start f 7 => ok
suspend f 7 => 201 boot 1
info f 7 => state 5, 2048 of 2048 KiB, vcpus 2

# A copy takes three polls; another is given up after 64 that saw no less left than the one before.
define s 8 slow 3 => domain s 00000000-0000-4000-8000-000000000008, id -1
start s 8 => ok
job s 8 => job none, 0 left
abort s 8 => 55 running
save s 8 s => ok
info s 8 => state 5, 2048 of 2048 KiB, vcpus 2
define g 9 slow 5; stall => domain g 00000000-0000-4000-8000-000000000009, id -1
start g 9 => ok
save g 9 g => 207 5
info g 9 => state 1, 2048 of 2048 KiB, vcpus 2
restore g => 9 class 21

# Settings, and what guests do by themselves.
stats d 4 => 2048 KiB
memory d 4 1024 => ok
stats d 4 => 1024 KiB
memory d 4 0 => 8 0 1
memory d 4 4096 => 8 4096 2048
vcpus d 4 1 => ok
vcpus d 4 3 => 8 3 2
info d 4 => state 1, 1024 of 2048 KiB, vcpus 1
memory f 7 1 => 55 shut off
stats f 7 => 55 shut off
kick c 3 0 => 8 0 1
kick c 3 6 => 8 6 5
kick c 3 4 => ok
info c 3 => state 3, 2048 of 2048 KiB, vcpus 2
kick c 3 5 => ok
info c 3 => state 1, 2048 of 2048 KiB, vcpus 2
kick c 3 2 => ok
info c 3 => state 6, 2048 of 2048 KiB, vcpus 2
suspend c 3 => 55 crashed
resume c 3 => 55 crashed
reboot c 3 => ok
info c 3 => state 1, 2048 of 2048 KiB, vcpus 2
kick c 3 3 => ok
info c 3 => state 5, 2048 of 2048 KiB, vcpus 2
kick c 3 1 => 55 shut off
start c 3 => ok
shutdown c 3 => ok
info c 3 => state 5, 2048 of 2048 KiB, vcpus 2

# A guest has thirty slots, and one that becomes free is taken again.
define m 10 => domain m 00000000-0000-4000-8000-00000000000a, id -1
attach m 10 vda => 55 shut off
start m 10 => ok
attach m 10 vda => ok
attach m 10 vdb => ok
attach m 10 vdc => ok
attach m 10 vdd => ok
attach m 10 vde => ok
attach m 10 vdf => ok
attach m 10 vdg => ok
attach m 10 vdh => ok
attach m 10 vdi => ok
attach m 10 vdj => ok
attach m 10 vdk => ok
attach m 10 vdl => ok
attach m 10 vdm => ok
attach m 10 vdn => ok
attach m 10 vdo => ok
attach m 10 vdp => ok
attach m 10 vdq => ok
attach m 10 vdr => ok
attach m 10 vds => ok
attach m 10 vdt => ok
attach m 10 vdu => ok
attach m 10 vdv => ok
attach m 10 vdw => ok
attach m 10 vdx => ok
attach m 10 vdy => ok
attach m 10 vdz => ok
attach m 10 vdaa => ok
attach m 10 vdab => ok
attach m 10 vdac => ok
attach m 10 vdad => ok
attach m 10 vda => 55 running
attach m 10 vdae => 209
slots m 10 => slots vda:0x02 vdb:0x03 vdc:0x04 vdd:0x05 vde:0x06 vdf:0x07 vdg:0x08 vdh:0x09 vdi:0x0a vdj:0x0b vdk:0x0c vdl:0x0d vdm:0x0e vdn:0x0f vdo:0x10 vdp:0x11 vdq:0x12 vdr:0x13 vds:0x14 vdt:0x15 vdu:0x16 vdv:0x17 vdw:0x18 vdx:0x19 vdy:0x1a vdz:0x1b vdaa:0x1c vdab:0x1d vdac:0x1e vdad:0x1f
detach m 10 vdc => ok
detach m 10 vdc => 8 vdc
attach m 10 vdae => ok
slots m 10 => slots vda:0x02 vdb:0x03 vdd:0x05 vde:0x06 vdf:0x07 vdg:0x08 vdh:0x09 vdi:0x0a vdj:0x0b vdk:0x0c vdl:0x0d vdm:0x0e vdn:0x0f vdo:0x10 vdp:0x11 vdq:0x12 vdr:0x13 vds:0x14 vdt:0x15 vdu:0x16 vdv:0x17 vdw:0x18 vdx:0x19 vdy:0x1a vdz:0x1b vdaa:0x1c vdab:0x1d vdac:0x1e vdad:0x1f vdae:0x04
attach m 10 vdc => 209

# A guest is saved and comes back with its memory and its definition, to run or not as it did; a dump is no save.
define h 11 => domain h 00000000-0000-4000-8000-00000000000b, id -1
start h 11 => ok
memory h 11 1024 => ok
save h 11 h => ok
info h 11 => state 5, 2048 of 2048 KiB, vcpus 2
restore h => ok
info h 11 => state 1, 1024 of 2048 KiB, vcpus 2
stats h 11 => 1024 KiB
lookup h => domain h 00000000-0000-4000-8000-00000000000b, id 2
restore h => 55 running
restore absent => 9 class 21
restore packed => 9 class 22
restore a/b => 8 a/b
save h 11 a/b => 8 a/b
dump h 11 core => ok
info h 11 => state 1, 1024 of 2048 KiB, vcpus 2
restore core => 9 class 21
suspend h 11 => ok
save h 11 h => ok
undefine h 11 => ok
lookup h => 42 h
restore h => ok
info h 11 => state 3, 1024 of 2048 KiB, vcpus 2
lookup h => domain h 00000000-0000-4000-8000-00000000000b, id 3
undefine h 11 => 55 paused
destroy h 11 => ok
lookup h => 42 h

# Snapshots of a guest, each a child of the one before.
define k 12 => domain k 00000000-0000-4000-8000-00000000000c, id -1
start k 12 => ok
snapshot k 12 s1 => s1
snapshot k 12 s2 => s2
snapshot k 12 s3 => s3
snapshot k 12 s2 => 208 s2
snapshot k 12 a/b => 27 /domainsnapshot/name
snapshots k 12 => names s1 s2 s3
parent k 12 s1 => no parent
parent k 12 s3 => s2
parent k 12 s4 => 72 s4
snapshot-text k 12 s3 => text
  <domainsnapshot>
    <name>s3</name>
    <state>running</state>
    <parent>
      <name>s2</name>
    </parent>
  </domainsnapshot>
delete k 12 s2 0 => ok
parent k 12 s3 => s1
memory k 12 1024 => ok
revert k 12 s1 => ok
stats k 12 => 2048 KiB
snapshot k 12 snap1 => snap1
parent k 12 snap1 => s1
snapshot k 12 => snap2
parent k 12 snap2 => snap1
delete k 12 s1 1 => ok
snapshots k 12 => names
delete k 12 s1 0 => 72 s1
delete k 12 a/b 2 => 8 a/b
delete k 12 s1 2 => 8 2 1
revert k 12 s1 => 72 s1

# A domain without a guest goes back to one, and a guest to none. One with snapshots stays defined.
snapshot k 12 on => on
parent k 12 on => no parent
destroy k 12 => ok
revert k 12 on => ok
lookup k => domain k 00000000-0000-4000-8000-00000000000c, id 5
info k 12 => state 1, 2048 of 2048 KiB, vcpus 2
destroy k 12 => ok
snapshot k 12 off => off
snapshot-text k 12 off => text
  <domainsnapshot>
    <name>off</name>
    <state>shutoff</state>
    <parent>
      <name>on</name>
    </parent>
  </domainsnapshot>
start k 12 => ok
revert k 12 off => ok
info k 12 => state 5, 2048 of 2048 KiB, vcpus 2
revert k 12 off => ok
undefine k 12 => 55 shut off
delete k 12 on 1 => ok
undefine k 12 => ok
lookup k => 42 k

# A domain has 64 snapshots at most.
define l 13 => domain l 00000000-0000-4000-8000-00000000000d, id -1
snapshot l 13 => snap1
snapshot l 13 => snap2
snapshot l 13 => snap3
snapshot l 13 => snap4
snapshot l 13 => snap5
snapshot l 13 => snap6
snapshot l 13 => snap7
snapshot l 13 => snap8
snapshot l 13 => snap9
snapshot l 13 => snap10
snapshot l 13 => snap11
snapshot l 13 => snap12
snapshot l 13 => snap13
snapshot l 13 => snap14
snapshot l 13 => snap15
snapshot l 13 => snap16
snapshot l 13 => snap17
snapshot l 13 => snap18
snapshot l 13 => snap19
snapshot l 13 => snap20
snapshot l 13 => snap21
snapshot l 13 => snap22
snapshot l 13 => snap23
snapshot l 13 => snap24
snapshot l 13 => snap25
snapshot l 13 => snap26
snapshot l 13 => snap27
snapshot l 13 => snap28
snapshot l 13 => snap29
snapshot l 13 => snap30
snapshot l 13 => snap31
snapshot l 13 => snap32
snapshot l 13 => snap33
snapshot l 13 => snap34
snapshot l 13 => snap35
snapshot l 13 => snap36
snapshot l 13 => snap37
snapshot l 13 => snap38
snapshot l 13 => snap39
snapshot l 13 => snap40
snapshot l 13 => snap41
snapshot l 13 => snap42
snapshot l 13 => snap43
snapshot l 13 => snap44
snapshot l 13 => snap45
snapshot l 13 => snap46
snapshot l 13 => snap47
snapshot l 13 => snap48
snapshot l 13 => snap49
snapshot l 13 => snap50
snapshot l 13 => snap51
snapshot l 13 => snap52
snapshot l 13 => snap53
snapshot l 13 => snap54
snapshot l 13 => snap55
snapshot l 13 => snap56
snapshot l 13 => snap57
snapshot l 13 => snap58
snapshot l 13 => snap59
snapshot l 13 => snap60
snapshot l 13 => snap61
snapshot l 13 => snap62
snapshot l 13 => snap63
snapshot l 13 => snap64
snapshot l 13 => 204 64
snapshot l 13 snap7 => 208 snap7

# Domains that are not stored, and one that is given its identifier.
create t 14 => domain t 00000000-0000-4000-8000-00000000000e, id 1
create t 14 => 55 running
create l 13 => 55 shut off
titles => titles c='The domain c' d='The domain d' e='The domain e' f='The domain f' g='The domain g' l='The domain l' m='The domain m' r='The domain r' s='The domain s'
destroy t 14 => ok
lookup t => 42 t
define-text <domain type='qemu'><name>u</name><memory>1</memory><os><type>hvm</type></os></domain> => domain u RANDOM, id -1

# Lists of domains, by rising name, and autostart.
list => domains c:5 d:1 e:1 f:5 g:1 l:5 m:1 r:1 s:5 u:5
defined 8 => names c f l s u
defined 2 => names c f
defined 0 => names
defined -1 => 8 -1 0
defined 1024 => names c f l s u
defined 1025 => 8 1025 1024
autostart c 3 => no
set-autostart c 3 1 => ok
autostart c 3 => yes
set-autostart c 3 2 => 8 2 1
set-autostart c 3 -1 => 8 -1 0
set-autostart d 4 1 => ok
set-autostart d 4 0 => ok
autostart d 4 => no

# What is not served, and what a connection asks.
defined-networks => 206 36
networks => 206 38
network-start n 1 => 206 39
network-define <network/> => 206 41
network-lookup n => 206 46
leases n 1 => 206 40
pools => 206 26
pool-define <pool/> => 206 20
pool-lookup p => 206 25
volumes p 1 => 206 32
watch c 3 => 206 10
unwatch c 3 => 206 11
open => ok

# A guest moves to another host.
define v 15 slow 2 => domain v 00000000-0000-4000-8000-00000000000f, id -1
perform v 15 => 55 shut off
start v 15 => ok
memory v 15 1536 => ok
limit v 15 0 => 55 running
perform v 15 => a running guest, state 0000000000000600
job v 15 => job migrate-out, rests, 0 left
info v 15 => state 3, 1536 of 2048 KiB, vcpus 2
suspend v 15 => 55 paused
resume v 15 => 68 migrate-out
perform v 15 => 68 migrate-out
finish v 15 1 => 55 paused
host 2
lookup v => 42 v
prepare => domain v 00000000-0000-4000-8000-00000000000f, id 1
job v 15 => job migrate-in, rests, 0 left
info v 15 => state 3, 1536 of 2048 KiB, vcpus 2
suspend v 15 => 68 migrate-in
confirm v 15 1 => 55 paused
finish v 15 2 => 8 2 1
finish v 15 1 => ok
info v 15 => state 1, 1536 of 2048 KiB, vcpus 2
stats v 15 => 1536 KiB
host 1
confirm v 15 2 => 8 2 1
confirm v 15 1 => ok
info v 15 => state 5, 2048 of 2048 KiB, vcpus 2
confirm v 15 1 => 55 shut off

# It should come back, is not let go on there, and goes on where it was.
host 2
perform v 15 => a running guest, state 0000000000000600
host 1
prepare => domain v 00000000-0000-4000-8000-00000000000f, id 2
finish v 15 0 => ok
info v 15 => state 5, 2048 of 2048 KiB, vcpus 2
host 2
confirm v 15 0 => ok
info v 15 => state 1, 1536 of 2048 KiB, vcpus 2
undefine v 15 => 55 running
prepare => 55 running
destroy v 15 => ok
prepare w 16 2 - => 8 2 1
prepare w 16 1 - => 9 class 2
lookup w => 42 w

# Both daemons are ended and started again. What is stored is in its file, and is there again; what is to
# be started is started.
host 1
end
  told of a: (0,0) (0,1) (2,0) (0,1) (1,0) (5,1)
  told of c: (0,0) (5,2) (2,0) (3,0) (4,0) (8,0) (4,0) (5,2) (2,0) (6,0) (5,0)
  told of d: (0,0) (2,0) (3,0) (4,0)
  told of r: (0,0) (5,5) (2,0)
  told of e: (0,0) (2,0) (5,5) (2,0)
  told of f: (0,0) (2,0) (5,2)
  told of s: (0,0) (2,0) (3,0) (5,4)
  told of g: (0,0) (2,0) (3,0) (4,0)
  told of m: (0,0) (2,0)
  told of h: (0,0) (2,0) (3,0) (5,4) (2,2) (3,0) (4,0) (3,0) (5,4) (1,0) (2,2) (3,0) (5,1)
  told of k: (0,0) (2,0) (3,0) (4,0) (3,0) (4,0) (3,0) (4,0) (5,6) (2,3) (3,0) (4,0) (3,0) (4,0) (3,0) (4,0) (5,1) (2,3) (5,1) (2,0) (5,6) (1,0)
  told of l: (0,0)
  told of t: (2,0) (5,1)
  told of u: (0,0)
  told of v: (0,0) (2,0) (3,0) (5,3) (5,5)
  domain c 00000000-0000-4000-8000-000000000003 ok, with autostart
  domain d 00000000-0000-4000-8000-000000000004 ok
  domain r 00000000-0000-4000-8000-000000000005 ok
  domain e 00000000-0000-4000-8000-000000000006 ok
  domain f 00000000-0000-4000-8000-000000000007 ok
  domain s 00000000-0000-4000-8000-000000000008 ok
  domain g 00000000-0000-4000-8000-000000000009 ok
  domain m 00000000-0000-4000-8000-00000000000a ok
  domain l 00000000-0000-4000-8000-00000000000d ok
  domain v 00000000-0000-4000-8000-00000000000f ok
  domain u RANDOM ok
  was running d boot 1, running
  was running r boot 2, running
  was running e boot 2, running
  was running g boot 1, running
  was running m boot 1, running
list => domains c:1 d:5 e:5 f:5 g:5 l:5 m:5 r:5 s:5 u:5 v:5
end
  told of c: (2,0)
  said was running d boot 1
  said was running r boot 2
  said was running e boot 2
  said was running g boot 1
  said was running m boot 1
  domain c 00000000-0000-4000-8000-000000000003 ok, with autostart
  domain d 00000000-0000-4000-8000-000000000004 ok
  domain r 00000000-0000-4000-8000-000000000005 ok
  domain e 00000000-0000-4000-8000-000000000006 ok
  domain f 00000000-0000-4000-8000-000000000007 ok
  domain s 00000000-0000-4000-8000-000000000008 ok
  domain g 00000000-0000-4000-8000-000000000009 ok
  domain m 00000000-0000-4000-8000-00000000000a ok
  domain l 00000000-0000-4000-8000-00000000000d ok
  domain v 00000000-0000-4000-8000-00000000000f ok
  domain u RANDOM ok
  was running c boot 1, running
host 2
end
  told of v: (2,1) (3,0) (4,0) (5,1)
  told of w: (5,5)
