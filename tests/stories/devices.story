Devices that come and go, and what is set of a guest. Devices take the slots from 0x02 on.

Each line has a request, and after `=>` what it is answered. (2,0) and the like are the events that
listeners are to be told by it; nobody can listen yet, so they are kept for a later player, and not
compared. After `|` is the domain's state then. README.md has all of the notation.

== disks take the slots in order
define a 1 => domain a 00000000-0000-4000-8000-000000000001, id -1 | shut off
start a 1 => ok (2,0) | running
attach a 1 vda => ok | running
attach a 1 vdb => ok | running
attach a 1 vdc => ok | running
slots a 1 => slots vda:0x02 vdb:0x03 vdc:0x04
detach a 1 vdb => ok | running
attach a 1 vdd => ok | running
slots a 1 => slots vda:0x02 vdc:0x04 vdd:0x03

== devices that are there and that are not
# The last detach is refused at its second command, and its first one is undone.
define a 1 boot 1 command 6 refuse => domain a 00000000-0000-4000-8000-000000000001, id -1 | shut off
start a 1 => ok (2,0) | running
attach a 1 vda => ok | running
attach a 1 vda => 55 running | running
detach a 1 vdb => 8 vdb | running
detach a 1 vda => 9 class 1 | running
slots a 1 => slots vda:0x02
detach a 1 vda => ok | running
detach a 1 vda => 8 vda | running

== an interface on a network gets an address first
# Nobody gives one as long as no networks are served. An interface of the user type needs none.
define a 1 => domain a 00000000-0000-4000-8000-000000000001, id -1 | shut off
start a 1 => ok (2,0) | running
attach-text a 1 <interface type='network'><mac address='52:54:00:00:00:01'/><source network='default'/></interface> => 9 class 11 | running
attach-text a 1 <interface type='user'><mac address='52:54:00:00:00:01'/></interface> => ok | running
attach-text a 1 <interface type='user'><mac address='52:54:00:00:00:01'/></interface> => 55 running | running
detach-text a 1 <interface type='user'><mac address='52:54:00:00:00:01'/></interface> => ok | running

== memory and processors within the definition
define a 1 => domain a 00000000-0000-4000-8000-000000000001, id -1 | shut off
start a 1 => ok (2,0) | running
memory a 1 1024 => ok | running
memory a 1 2049 => 8 2049 2048 | running
vcpus a 1 0 => 8 0 1 | running
memory a 1 0 => 8 0 1 | running
vcpus a 1 3 => 8 3 2 | running
kick a 1 6 => 8 6 5 | running
kick a 1 -3 => 8 -3 1 | running
info a 1 => state 1, 1024 of 2048 KiB, vcpus 2
