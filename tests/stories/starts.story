A guest is started and ended, by calls and by itself.

Each line has a request, and after `=>` what it is answered. (2,0) and the like are the events that
listeners are to be told by it; nobody can listen yet, so they are kept for a later player, and not
compared. After `|` is the domain's state then. README.md has all of the notation.

== a domain without a stored definition goes with its guest
define a 1 => domain a 00000000-0000-4000-8000-000000000001, id -1 (0,0) | shut off
start a 1 => ok (2,0) | running
undefine a 1 => ok (1,0) | running
destroy a 1 => ok (5,1) | gone
suspend a 1 => 42 00000000-0000-4000-8000-000000000001 | gone

== a vacant cell keeps its number of boots
# The next domain takes the place of the one that is gone, and boots are counted on there.
create a 1 => domain a 00000000-0000-4000-8000-000000000001, id 1 (2,0) | running
destroy a 1 => ok (5,1) | gone
create a 1 => domain a 00000000-0000-4000-8000-000000000001, id 2 (2,0) | running
destroy a 1 => ok (5,1) | gone
create a 1 => domain a 00000000-0000-4000-8000-000000000001, id 3 (2,0) | running
destroy a 1 => ok (5,1) | gone
create a 1 => domain a 00000000-0000-4000-8000-000000000001, id 4 (2,0) | running
destroy a 1 => ok (5,1) | gone
create a 1 => domain a 00000000-0000-4000-8000-000000000001, id 5 (2,0) | running
destroy a 1 => ok (5,1) | gone
create a 1 => domain a 00000000-0000-4000-8000-000000000001, id 6 (2,0) | running
destroy a 1 => ok (5,1) | gone
create a 1 => domain a 00000000-0000-4000-8000-000000000001, id 7 (2,0) | running
create a 1 => 55 running | running
destroy a 1 => ok (5,1) | gone
create a 1 boot 8 command 1 refuse => 9 class 1 (5,5) | gone
start a 1 => 42 00000000-0000-4000-8000-000000000001 | gone

== a domain is defined again and undefined
# The store can't write its draft where a directory has the name.
block domain-00000000-0000-4000-8000-000000000001.tmp
define a 1 => 38 | gone
unblock domain-00000000-0000-4000-8000-000000000001.tmp
define a 1 => domain a 00000000-0000-4000-8000-000000000001, id -1 (0,0) | shut off
define a 1 => domain a 00000000-0000-4000-8000-000000000001, id -1 (0,1) | shut off
set-autostart a 1 1 => ok | shut off
undefine a 1 => ok (1,0) | gone

== a start that is refused leaves no guest
# An interface on a network needs an address, which nobody gives as long as no networks are served.
define-text <domain type='qemu'><name>n</name><uuid>00000000-0000-4000-8000-000000000002</uuid><memory>2048</memory><os><type>hvm</type></os><devices><interface type='network'><mac address='52:54:00:00:00:01'/><source network='default'/></interface></devices></domain> => domain n 00000000-0000-4000-8000-000000000002, id -1 (0,0) | shut off
start n 2 => 9 class 11 (5,5) | shut off
start n 2 => 9 class 11 (5,5) | shut off
define a 1 boot 1 command 2 refuse => domain a 00000000-0000-4000-8000-000000000001, id -1 (0,0) | shut off
start a 1 => 9 class 1 (5,5) | shut off
start a 1 => ok (2,0) | running
lookup a => domain a 00000000-0000-4000-8000-000000000001, id 2

== a guest that ends at an undo
# The first command is refused, and at the one that undoes the start the guest ends.
define a 1 boot 1 command 1 refuse; boot 1 command 2 end => domain a 00000000-0000-4000-8000-000000000001, id -1 (0,0) | shut off
start a 1 => 201 boot 1 (5,2) | shut off

== what a guest does by itself
define a 1 => domain a 00000000-0000-4000-8000-000000000001, id -1 (0,0) | shut off
start a 1 => ok (2,0) | running
kick a 1 4 => ok (3,0) | paused
kick a 1 4 => ok | paused
kick a 1 5 => ok (4,0) | running
kick a 1 2 => ok (8,0) | crashed
kick a 1 2 => ok | crashed
suspend a 1 => 55 crashed | crashed
stats a 1 => 2048 KiB | crashed
reboot a 1 => ok (4,0) | running
kick a 1 1 => ok (6,0) (5,0) | shut off
