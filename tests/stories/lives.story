Lives of domains, and what many calls leave as it was.

Each line has a request, and after `=>` what it is answered. (2,0) and the like are the events that
listeners are to be told by it; nobody can listen yet, so they are kept for a later player, and not
compared. After `|` is the domain's state then. README.md has all of the notation.

== a guest that stopped itself is resumed
define a 1 => domain a 00000000-0000-4000-8000-000000000001, id -1 (0,0) | shut off
start a 1 => ok (2,0) | running
kick a 1 4 => ok (3,0) | paused
stats a 1 => 2048 KiB | paused
resume a 1 => ok (4,0) | running

== a cell becomes vacant, and its number of boots stays
define a 1 => domain a 00000000-0000-4000-8000-000000000001, id -1 (0,0) | shut off
start a 1 => ok (2,0) | running
undefine a 1 => ok (1,0) | running
shutdown a 1 => ok (6,0) (5,0) | gone
create b 2 => domain b 00000000-0000-4000-8000-000000000002, id 2 (2,0) | running

== a cell serves one domain after another
define a 1 => domain a 00000000-0000-4000-8000-000000000001, id -1 (0,0) | shut off
start a 1 => ok (2,0) | running
undefine a 1 => ok (1,0) | running
shutdown a 1 => ok (6,0) (5,0) | gone
define b 2 => domain b 00000000-0000-4000-8000-000000000002, id -1 (0,0) | shut off
start b 2 => ok (2,0) | running
lookup b => domain b 00000000-0000-4000-8000-000000000002, id 2

== the first boot after a daemon's start has the number 1
define a 1 => domain a 00000000-0000-4000-8000-000000000001, id -1 (0,0) | shut off
start a 1 => ok (2,0) | running
destroy a 1 => ok (5,1) | shut off
start a 1 => ok (2,0) | running
lookup a => domain a 00000000-0000-4000-8000-000000000001, id 2
end
  domain a 00000000-0000-4000-8000-000000000001 ok
  was running a boot 2, running
start a 1 => ok (2,0) | running
lookup a => domain a 00000000-0000-4000-8000-000000000001, id 1
end
  said was running a boot 2
  domain a 00000000-0000-4000-8000-000000000001 ok
  was running a boot 1, running

== a whole life
define a 1 => domain a 00000000-0000-4000-8000-000000000001, id -1
start a 1 => ok (2,0)
undefine a 1 => ok (1,0)
info a 1 => state 1, 2048 of 2048 KiB, vcpus 2
destroy a 1 => ok (5,1) | gone

== a guest tells its end
define a 1 => domain a 00000000-0000-4000-8000-000000000001, id -1
start a 1 => ok (2,0)
kick a 1 3 => ok (5,2)
info a 1 => state 5, 2048 of 2048 KiB, vcpus 2

== where there is memory enough no call says that there is none
define a 1 => domain a 00000000-0000-4000-8000-000000000001, id -1
start a 1 => ok (2,0)
info a 1 => state 1, 2048 of 2048 KiB, vcpus 2
suspend a 1 => ok (3,0)
info a 1 => state 3, 2048 of 2048 KiB, vcpus 2
resume a 1 => ok (4,0)
destroy a 1 => ok (5,1)
info a 1 => state 5, 2048 of 2048 KiB, vcpus 2

== two domains live at once
# What is said of each is what is said of one that is alone.
define b 3 => domain b 00000000-0000-4000-8000-000000000003, id -1
define c 4 => domain c 00000000-0000-4000-8000-000000000004, id -1
start b 3 => ok
start c 4 => ok
suspend c 4 => ok
suspend b 3 => ok
info b 3 => state 3, 2048 of 2048 KiB, vcpus 2
info c 4 => state 3, 2048 of 2048 KiB, vcpus 2
resume b 3 => ok
resume c 4 => ok
memory c 4 1024 => ok
memory b 3 1024 => ok
snapshot b 3 s => s
snapshot c 4 s => s
lookup b => domain b 00000000-0000-4000-8000-000000000003, id 1
lookup c => domain c 00000000-0000-4000-8000-000000000004, id 1
destroy c 4 => ok
destroy b 3 => ok
undefine b 3 => 55 shut off
undefine c 4 => 55 shut off
set-autostart b 3 1 => ok
set-autostart c 4 1 => ok
info b 3 => state 5, 2048 of 2048 KiB, vcpus 2
info c 4 => state 5, 2048 of 2048 KiB, vcpus 2
end
  domain b 00000000-0000-4000-8000-000000000003 ok, with autostart
  domain c 00000000-0000-4000-8000-000000000004 ok, with autostart

== one name is defined by the first who asks for it
define a 1 => domain a 00000000-0000-4000-8000-000000000001, id -1
define a 2 => 28 00000000-0000-4000-8000-000000000001
list => domains a:5
end
  domain a 00000000-0000-4000-8000-000000000001 ok

== a connection is opened and closed
open => ok
define a 1 => domain a 00000000-0000-4000-8000-000000000001, id -1
open => ok
close => ok
check
  domain a 00000000-0000-4000-8000-000000000001 ok
lookup a => domain a 00000000-0000-4000-8000-000000000001, id -1

== more marks than a chapter of the domain's history holds leave it as it is
# A chapter ends with the first call after 4,096 marks. A save that is given up leaves 130 and more of
# them, two for each of its 65 polls.
define a 1 slow 5; stall => domain a 00000000-0000-4000-8000-000000000001, id -1 | shut off
start a 1 => ok (2,0) | running
snapshot a 1 s => 207 5 (3,0) (4,0) | running
36 times save a 1 s => 207 5
memory a 1 1024 => ok | running
lookup a => domain a 00000000-0000-4000-8000-000000000001, id 1
suspend a 1 => ok (3,0) | paused
stats a 1 => 1024 KiB

== a migration rests through the end of a chapter
# Its polls alone leave more than 4,096 marks; the chapter ends with one of the calls after it.
define a 1 slow 2100 => domain a 00000000-0000-4000-8000-000000000001, id -1 | shut off
start a 1 => ok (2,0) | running
perform a 1 => a running guest, state 0000000000000800 (3,0) | paused
10 times kick a 1 0 => 8 0 1
job a 1 => job migrate-out, rests, 0 left
save a 1 s => 68 migrate-out | paused
confirm a 1 1 => ok (5,3) | shut off

== one domain through ten rounds
define a 1 => domain a 00000000-0000-4000-8000-000000000001, id -1 | shut off
start a 1 => ok (2,0) | running
10 rounds
  suspend a 1 => ok (3,0)
  lookup a => domain a 00000000-0000-4000-8000-000000000001, id 1
  resume a 1 => ok (4,0)
  info a 1 => state 1, 2048 of 2048 KiB, vcpus 2
  define a 1 => domain a 00000000-0000-4000-8000-000000000001, id 1 (0,1)
end
  domain a 00000000-0000-4000-8000-000000000001 ok
  was running a boot 1, running
