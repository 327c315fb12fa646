Guests are moved to another host, and come from one. A guest that leaves is sent CopyBegin, CopyPoll
until nothing is left, Stop and CopyTake; then the migration rests, and a confirm sends Quit or Cont. One
that comes is sent LoadState, and a finish sends Cont or Quit.

A call that what rests does not let in looks for three seconds before it is refused with 68.

Each line has a request, and after `=>` what it is answered. (2,0) and the like are the events that
listeners are to be told by it; nobody can listen yet, so they are kept for a later player, and not
compared. After `|` is the domain's state then. README.md has all of the notation.

== a guest goes on at the other host
define a 1 slow 3 => domain a 00000000-0000-4000-8000-000000000001, id -1 | shut off
start a 1 => ok (2,0) | running
perform a 1 => a running guest, state 0000000000000800 (3,0) | paused
job a 1 => job migrate-out, rests, 0 left
suspend a 1 => 55 paused | paused
kick a 1 5 => ok | paused
abort a 1 => 55 paused | paused
finish a 1 1 => 55 paused | paused
confirm a 1 1 => ok (5,3) | shut off
job a 1 => job none, 0 left

== a guest goes on here after all
# Its Quit is refused: the migration rests again, and can be taken up by another confirm.
define a 1 boot 1 command 7 refuse => domain a 00000000-0000-4000-8000-000000000001, id -1 | shut off
start a 1 => ok (2,0) | running
perform a 1 => a running guest, state 0000000000000800 (3,0) | paused
confirm a 1 1 => 9 class 1 | paused
confirm a 1 0 => ok (4,0) | running
confirm a 1 0 => 55 running | running

== a limit is for a migration that is under way
define a 1 => domain a 00000000-0000-4000-8000-000000000001, id -1 | shut off
limit a 1 2 => 55 shut off | shut off
start a 1 => ok (2,0) | running
limit a 1 2 => 55 running | running
perform a 1 => a running guest, state 0000000000000800 (3,0) | paused
limit a 1 2 => 55 paused | paused

== a guest whose state can not be taken goes on
# CopyTake is command 6; Cont and CopyCancel follow, so that the next perform meets command 10.
define a 1 boot 1 command 6 refuse; boot 1 command 10 refuse => domain a 00000000-0000-4000-8000-000000000001, id -1 | shut off
start a 1 => ok (2,0) | running
perform a 1 => 9 class 1 | running
perform a 1 => 9 class 1 | running
perform a 1 => a running guest, state 0000000000000800 (3,0) | paused

== a guest comes from another host
define a 1 => domain a 00000000-0000-4000-8000-000000000001, id -1 | shut off
prepare a 1 1 0000000000000400 => domain a 00000000-0000-4000-8000-000000000001, id 1 | paused
job a 1 => job migrate-in, rests, 0 left
confirm a 1 1 => 55 paused | paused
finish a 1 1 => ok (2,1) | running
stats a 1 => 1024 KiB
prepare a 1 1 0000000000000400 => 55 running | running

== a guest that was paused comes paused
define a 1 => domain a 00000000-0000-4000-8000-000000000001, id -1 | shut off
prepare a 1 0 0000000000000800 => domain a 00000000-0000-4000-8000-000000000001, id 1 | paused
finish a 1 1 => ok (2,1) (3,0) | paused
resume a 1 => ok (4,0) | running

== a guest that came is given up and another can not be loaded
create a 1 => domain a 00000000-0000-4000-8000-000000000001, id 1 (2,0) | running
destroy a 1 => ok (5,1) | gone
create a 1 => domain a 00000000-0000-4000-8000-000000000001, id 2 (2,0) | running
destroy a 1 => ok (5,1) | gone
create a 1 => domain a 00000000-0000-4000-8000-000000000001, id 3 (2,0) | running
destroy a 1 => ok (5,1) | gone
create a 1 => domain a 00000000-0000-4000-8000-000000000001, id 4 (2,0) | running
destroy a 1 => ok (5,1) | gone
prepare a 1 1 0000000000000800 => domain a 00000000-0000-4000-8000-000000000001, id 5 | paused
finish a 1 0 => ok (5,5) | gone
prepare a 1 1 0000000000000800 boot 6 command 1 refuse => 9 class 1 (5,5) | gone
finish a 1 1 => 42 00000000-0000-4000-8000-000000000001 | gone

== a guest ends that was to leave
# A migration that rests lets a guest do something by itself.
define a 1 => domain a 00000000-0000-4000-8000-000000000001, id -1 | shut off
start a 1 => ok (2,0) | running
perform a 1 => a running guest, state 0000000000000800 (3,0) | paused
kick a 1 3 => ok (5,2) | shut off
confirm a 1 1 => 201 boot 1 | shut off
confirm a 1 1 => 55 shut off | shut off
start a 1 => ok (2,0) | running

== a migration rests, and another caller takes it up
define a 1 => domain a 00000000-0000-4000-8000-000000000001, id -1 | shut off
start a 1 => ok (2,0) | running
perform a 1 => a running guest, state 0000000000000800 (3,0) | paused
stats a 1 => 2048 KiB | paused
finish a 1 1 => 55 paused | paused
confirm a 1 0 => ok (4,0) | running

== no other operation begins beside one that rests
define a 1 => domain a 00000000-0000-4000-8000-000000000001, id -1 | shut off
start a 1 => ok (2,0) | running
perform a 1 => a running guest, state 0000000000000800 (3,0) | paused
save a 1 s => 68 migrate-out | paused
attach a 1 vda => 68 migrate-out | paused
confirm a 1 1 => ok (5,3) | shut off
restore s => 9 class 21 | shut off

== a guest that comes lets nothing in
# A destroy that has to wait ends the guest at once, and is refused all the same.
define a 1 => domain a 00000000-0000-4000-8000-000000000001, id -1 | shut off
prepare a 1 1 0000000000000800 => domain a 00000000-0000-4000-8000-000000000001, id 1 | paused
stats a 1 => 68 migrate-in | paused
destroy a 1 => 68 migrate-in (5,1) | shut off
finish a 1 1 => 201 boot 1 | shut off
start a 1 => ok (2,0) | running

== a guest ends that came
# A destroy ends it, as above, and no domain is left; but the migration rests until it is taken up.
prepare a 1 1 0000000000000800 => domain a 00000000-0000-4000-8000-000000000001, id 1 | paused
destroy a 1 => 68 migrate-in (5,1) | gone
finish a 1 1 => 201 boot 1 | gone
finish a 1 1 => 42 00000000-0000-4000-8000-000000000001 | gone

== a destroy ends a guest that was to leave
define a 1 => domain a 00000000-0000-4000-8000-000000000001, id -1 | shut off
start a 1 => ok (2,0) | running
perform a 1 => a running guest, state 0000000000000800 (3,0) | paused
destroy a 1 => ok (5,1) | shut off
confirm a 1 0 => 201 boot 1 | shut off
