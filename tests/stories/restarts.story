Daemons that end and start again on the same directory, and what they find there. `check` says what is
in the files; what a daemon finds of guests that ran, it says on standard error as it starts.

Each line has a request, and after `=>` what it is answered. Under `end` is what was said and what is in
the files; `told of` has the events that listeners were to be told of a domain, which nobody can hear
yet, so they are kept for a later player, and not compared. README.md has all of the notation.

== What was defined is there again, by rising name; a domain that is not stored is gone
define b 2 => domain b 00000000-0000-4000-8000-000000000002, id -1
define a 1 => domain a 00000000-0000-4000-8000-000000000001, id -1
define b 2 slow 2 => domain b 00000000-0000-4000-8000-000000000002, id -1
create t 9 => domain t 00000000-0000-4000-8000-000000000009, id 1
end
  told of b: (0,0) (0,1)
  told of a: (0,0)
  told of t: (2,0)
  domain a 00000000-0000-4000-8000-000000000001 ok
  domain b 00000000-0000-4000-8000-000000000002 ok
  was running t boot 1, running
lookup b => domain b 00000000-0000-4000-8000-000000000002, id -1
stored-text b 2 => text
  <domain type='qemu'>
    <name>b</name>
    <uuid>00000000-0000-4000-8000-000000000002</uuid>
    <title>The domain b</title>
    <metadata>
      <guest>slow 2</guest>
    </metadata>
    <memory unit='KiB'>2048</memory>
    <currentMemory unit='KiB'>2048</currentMemory>
    <vcpu>2</vcpu>
    <os>
      <type>hvm</type>
    </os>
    <on_poweroff>destroy</on_poweroff>
    <on_reboot>restart</on_reboot>
    <on_crash>destroy</on_crash>
  </domain>
lookup t => 42 t
titles => titles a='The domain a' b='The domain b'
end
  said was running t boot 1
  domain a 00000000-0000-4000-8000-000000000001 ok
  domain b 00000000-0000-4000-8000-000000000002 ok

== What is to be started is started, and what is undefined is not. A guest does not outlive its daemon
define b 2 => domain b 00000000-0000-4000-8000-000000000002, id -1
define a 1 => domain a 00000000-0000-4000-8000-000000000001, id -1
set-autostart b 2 1 => ok
set-autostart a 1 1 => ok
end
  domain a 00000000-0000-4000-8000-000000000001 ok, with autostart
  domain b 00000000-0000-4000-8000-000000000002 ok, with autostart
list => domains a:1 b:1
lookup a => domain a 00000000-0000-4000-8000-000000000001, id 1
destroy a 1 => ok
undefine a 1 => ok
start b 2 => 55 running
end
  told of a: (2,0) (5,1) (1,0)
  told of b: (2,0)
  domain b 00000000-0000-4000-8000-000000000002 ok, with autostart
  was running b boot 1, running
lookup a => 42 a
lookup b => domain b 00000000-0000-4000-8000-000000000002, id 1
set-autostart b 2 0 => ok
end
  said was running b boot 1
  domain b 00000000-0000-4000-8000-000000000002 ok
  was running b boot 1, running
info b 2 => state 5, 2048 of 2048 KiB, vcpus 2
end
  said was running b boot 1
  domain b 00000000-0000-4000-8000-000000000002 ok

== A start that is refused as the daemon starts is said, and the others go on
define a 1 boot 1 command 2 end => domain a 00000000-0000-4000-8000-000000000001, id -1
define b 2 boot 1 command 1 refuse => domain b 00000000-0000-4000-8000-000000000002, id -1
define c 3 boot 1 command 2 lost => domain c 00000000-0000-4000-8000-000000000003, id -1
define d 4 => domain d 00000000-0000-4000-8000-000000000004, id -1
set-autostart a 1 1 => ok
set-autostart b 2 1 => ok
set-autostart c 3 1 => ok
set-autostart d 4 1 => ok
end
  domain a 00000000-0000-4000-8000-000000000001 ok, with autostart
  domain b 00000000-0000-4000-8000-000000000002 ok, with autostart
  domain c 00000000-0000-4000-8000-000000000003 ok, with autostart
  domain d 00000000-0000-4000-8000-000000000004 ok, with autostart
list => domains a:5 b:5 c:5 d:1
start a 1 => ok
lookup a => domain a 00000000-0000-4000-8000-000000000001, id 2
end
  said virtd: a is not started: guest ended: boot 1
  said virtd: b is not started: operation failed: class 1
  said virtd: c is not started: monitor lost
  domain a 00000000-0000-4000-8000-000000000001 ok, with autostart
  domain b 00000000-0000-4000-8000-000000000002 ok, with autostart
  domain c 00000000-0000-4000-8000-000000000003 ok, with autostart
  domain d 00000000-0000-4000-8000-000000000004 ok, with autostart
  was running a boot 2, running
  was running d boot 1, running

== An image of a guest stays, and snapshots don't
define b 2 slow 2 => domain b 00000000-0000-4000-8000-000000000002, id -1
snapshot b 2 s => s
start b 2 => ok
memory b 2 1024 => ok
save b 2 b => ok
end
  told of b: (0,0) (2,0) (3,0) (5,4)
  domain b 00000000-0000-4000-8000-000000000002 ok
snapshots b 2 => names
restore b => ok
stats b 2 => 1024 KiB
end
  told of b: (2,2)
  domain b 00000000-0000-4000-8000-000000000002 ok
  was running b boot 1, running

== What is told of a boot that was live is found once
define b 2 => domain b 00000000-0000-4000-8000-000000000002, id -1
end
  domain b 00000000-0000-4000-8000-000000000002 ok
put run-00000000-0000-4000-8000-000000000002.sta run 1 boot=1 state=1 op=0 phase=0 name=b\n
check
  domain b 00000000-0000-4000-8000-000000000002 ok
  was running b boot 1, running
info b 2 => state 5, 2048 of 2048 KiB, vcpus 2
end
  said was running b boot 1
  domain b 00000000-0000-4000-8000-000000000002 ok
put run-00000000-0000-4000-8000-000000000002.sta run 1 boot=1
check
  domain b 00000000-0000-4000-8000-000000000002 ok
  was running ? boot ?
info b 2 => state 5, 2048 of 2048 KiB, vcpus 2
end
  said was running ? boot ?
  domain b 00000000-0000-4000-8000-000000000002 ok
info b 2 => state 5, 2048 of 2048 KiB, vcpus 2
end
  domain b 00000000-0000-4000-8000-000000000002 ok

== A definition of version 1 gets its title, and is kept as the others are
put domain-00000000-0000-4000-8000-000000000007.def def 1 autostart=yes name=old\n<domain type='qemu'><name>old</name><title>The old one</title><memory>1</memory><os><type>hvm</type></os></domain>
check
  domain old 00000000-0000-4000-8000-000000000007 ok, with autostart
titles => titles old='The old one'
info old 7 => state 1, 1 of 1 KiB, vcpus 1
define old 7 => domain old 00000000-0000-4000-8000-000000000007, id 1
titles => titles old='The domain old'
end
  told of old: (2,0) (0,1)
  domain old 00000000-0000-4000-8000-000000000007 ok, with autostart
  was running old boot 1, running

== A store that fails is told in that call alone
# The draft of a definition can't be written where a directory has its name.
define b 2 => domain b 00000000-0000-4000-8000-000000000002, id -1
block domain-00000000-0000-4000-8000-000000000003.tmp
define c 3 => 38
titles => titles b='The domain b'
unblock domain-00000000-0000-4000-8000-000000000003.tmp
define c 3 => domain c 00000000-0000-4000-8000-000000000003, id -1
titles => titles b='The domain b' c='The domain c'
end
  told of b: (0,0)
  told of c: (0,0)
  domain b 00000000-0000-4000-8000-000000000002 ok
  domain c 00000000-0000-4000-8000-000000000003 ok

== A snapshot goes with its children. None is there once the daemon is started again
define b 2 => domain b 00000000-0000-4000-8000-000000000002, id -1
snapshot b 2 s1 => s1
snapshot b 2 s2 => s2
snapshot b 2 s3 => s3
delete b 2 s2 1 => ok
snapshots b 2 => names s1
end
  domain b 00000000-0000-4000-8000-000000000002 ok
snapshots b 2 => names

== The link to a guest is lost within its start, and the boot ends
define q 17 boot 1 command 1 lost => domain q 00000000-0000-4000-8000-000000000011, id -1
start q 17 => 202
info q 17 => state 5, 2048 of 2048 KiB, vcpus 2
start q 17 => ok
lookup q => domain q 00000000-0000-4000-8000-000000000011, id 2
end
  told of q: (0,0) (5,5) (2,0)
  domain q 00000000-0000-4000-8000-000000000011 ok
  was running q boot 2, running

== What is left is undefined
define b 2 => domain b 00000000-0000-4000-8000-000000000002, id -1
define c 3 => domain c 00000000-0000-4000-8000-000000000003, id -1
set-autostart b 2 1 => ok
undefine b 2 => ok
undefine c 3 => ok
end
  told of b: (0,0) (1,0)
  told of c: (0,0) (1,0)
list => domains

== A name goes with its identifier, as before
define a 1 => domain a 00000000-0000-4000-8000-000000000001, id -1
define a 2 => 28 00000000-0000-4000-8000-000000000001
define a 1 => domain a 00000000-0000-4000-8000-000000000001, id -1
end
  told of a: (0,0) (0,1)
  domain a 00000000-0000-4000-8000-000000000001 ok
define a 2 => 28 00000000-0000-4000-8000-000000000001

== A domain goes with its guest
define a 1 => domain a 00000000-0000-4000-8000-000000000001, id -1
end
  domain a 00000000-0000-4000-8000-000000000001 ok
start a 1 => ok
undefine a 1 => ok
info a 1 => state 1, 2048 of 2048 KiB, vcpus 2
destroy a 1 => ok
lookup a => 42 a
end
  told of a: (2,0) (1,0) (5,1)

== Guests that end, refuse, are lost, are slow, and stall
define c 3 boot 1 command 2 end => domain c 00000000-0000-4000-8000-000000000003, id -1
start c 3 => 201 boot 1
start c 3 => ok
end
  told of c: (0,0) (5,2) (2,0)
  domain c 00000000-0000-4000-8000-000000000003 ok
  was running c boot 2, running
define d 4 boot 1 command 3 refuse => domain d 00000000-0000-4000-8000-000000000004, id -1
start d 4 => ok
suspend d 4 => 9 class 1
suspend d 4 => ok
end
  told of d: (0,0) (2,0) (3,0)
  said was running c boot 2
  domain c 00000000-0000-4000-8000-000000000003 ok
  domain d 00000000-0000-4000-8000-000000000004 ok
  was running d boot 1, paused
define e 6 boot 1 command 3 lost => domain e 00000000-0000-4000-8000-000000000006, id -1
start e 6 => ok
suspend e 6 => 202
info e 6 => state 5, 2048 of 2048 KiB, vcpus 2
end
  told of e: (0,0) (2,0) (5,5)
  said was running d boot 1
  domain c 00000000-0000-4000-8000-000000000003 ok
  domain d 00000000-0000-4000-8000-000000000004 ok
  domain e 00000000-0000-4000-8000-000000000006 ok
define s 8 slow 3 => domain s 00000000-0000-4000-8000-000000000008, id -1
start s 8 => ok
save s 8 s => ok
end
  told of s: (0,0) (2,0) (3,0) (5,4)
  domain c 00000000-0000-4000-8000-000000000003 ok
  domain d 00000000-0000-4000-8000-000000000004 ok
  domain e 00000000-0000-4000-8000-000000000006 ok
  domain s 00000000-0000-4000-8000-000000000008 ok
define g 9 slow 5; stall => domain g 00000000-0000-4000-8000-000000000009, id -1
start g 9 => ok
save g 9 g => 207 5
end
  told of g: (0,0) (2,0) (3,0) (4,0)
  domain c 00000000-0000-4000-8000-000000000003 ok
  domain d 00000000-0000-4000-8000-000000000004 ok
  domain e 00000000-0000-4000-8000-000000000006 ok
  domain s 00000000-0000-4000-8000-000000000008 ok
  domain g 00000000-0000-4000-8000-000000000009 ok
  was running g boot 1, running

== What is attached goes with the guest, and what is saved does not
define m 10 => domain m 00000000-0000-4000-8000-00000000000a, id -1
start m 10 => ok
attach m 10 vda => ok
attach m 10 vdb => ok
detach m 10 vda => ok
attach m 10 vdc => ok
slots m 10 => slots vdb:0x03 vdc:0x02
end
  told of m: (0,0) (2,0)
  domain m 00000000-0000-4000-8000-00000000000a ok
  was running m boot 1, running
start m 10 => ok
slots m 10 => slots
define h 11 => domain h 00000000-0000-4000-8000-00000000000b, id -1
start h 11 => ok
save h 11 h => ok
restore h => ok
restore absent => 9 class 21
end
  told of m: (2,0)
  told of h: (0,0) (2,0) (3,0) (5,4) (2,2)
  said was running m boot 1
  domain m 00000000-0000-4000-8000-00000000000a ok
  domain h 00000000-0000-4000-8000-00000000000b ok
  was running m boot 1, running
  was running h boot 2, running
restore h => ok
lookup h => domain h 00000000-0000-4000-8000-00000000000b, id 1
end
  said was running m boot 1
  said was running h boot 2
  domain m 00000000-0000-4000-8000-00000000000a ok
  domain h 00000000-0000-4000-8000-00000000000b ok
  was running h boot 1, running

== A guest goes back to its first snapshot
define k 12 => domain k 00000000-0000-4000-8000-00000000000c, id -1
start k 12 => ok
snapshot k 12 s1 => s1
snapshot k 12 s2 => s2
snapshot k 12 s3 => s3
delete k 12 s2 0 => ok
parent k 12 s3 => s1
revert k 12 s1 => ok
end
  told of k: (0,0) (2,0) (3,0) (4,0) (3,0) (4,0) (3,0) (4,0) (5,6) (2,3)
  domain k 00000000-0000-4000-8000-00000000000c ok
  was running k boot 1, running
