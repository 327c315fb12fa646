Guests are saved, restored and dumped; a copy of a guest's state is given up. A save of a guest that
runs sends Stop, CopyBegin, CopyPoll until nothing is left, CopyTake and Quit, a dump ends with Cont in
place of Quit, and one that is given up with CopyCancel and Cont.

Each line has a request, and after `=>` what it is answered. (2,0) and the like are the events that
listeners are to be told by it; nobody can listen yet, so they are kept for a later player, and not
compared. After `|` is the domain's state then. README.md has all of the notation.

== a guest is saved and restored
define a 1 => domain a 00000000-0000-4000-8000-000000000001, id -1 | shut off
start a 1 => ok (2,0) | running
save a 1 s => ok (3,0) (5,4) | shut off
restore s => ok (2,2) | running
restore s => 55 running | running
lookup a => domain a 00000000-0000-4000-8000-000000000001, id 2

== a guest that was saved paused is restored paused
define a 1 => domain a 00000000-0000-4000-8000-000000000001, id -1 | shut off
start a 1 => ok (2,0) | running
suspend a 1 => ok (3,0) | paused
save a 1 s => ok (5,4) | shut off
restore s => ok (2,2) (3,0) | paused
save a 1 s => ok (5,4) | shut off

== a state that is refused leaves no guest
define a 1 boot 2 command 1 refuse => domain a 00000000-0000-4000-8000-000000000001, id -1 | shut off
start a 1 => ok (2,0) | running
save a 1 s => ok (3,0) (5,4) | shut off
restore s => 9 class 1 (5,5) | shut off
restore s => ok (2,2) | running
lookup a => domain a 00000000-0000-4000-8000-000000000001, id 3

== a save that makes no headway in 64 polls
# The first poll compares with nothing, and the next 64 see no less left. So the command that gives the
# copy up is the 70th: after two of the start, Stop, CopyBegin and 65 polls. Where that one is refused,
# the guest is not set going again.
define a 1 slow 5; stall; boot 2 command 70 refuse => domain a 00000000-0000-4000-8000-000000000001, id -1 | shut off
start a 1 => ok (2,0) | running
save a 1 s => 207 5 (3,0) (4,0) | running
abort a 1 => 55 running | running
destroy a 1 => ok (5,1) | shut off
start a 1 => ok (2,0) | running
save a 1 s => 207 5 (3,0) | paused

== a save whose polls all see less left is not given up
define a 1 slow 100 => domain a 00000000-0000-4000-8000-000000000001, id -1 | shut off
start a 1 => ok (2,0) | running
save a 1 s => ok (3,0) (5,4) | shut off

== refusals on the way of a dump
# The commands of the first dump are 3 to 5, those of the second 6 to 10, those of the third 11 to 15,
# at which its image can't be written and then CopyCancel is refused.
define a 1 boot 1 command 4 refuse; boot 1 command 8 refuse; boot 1 command 15 refuse => domain a 00000000-0000-4000-8000-000000000001, id -1 | shut off
start a 1 => ok (2,0) | running
dump a 1 d => 9 class 1 | running
dump a 1 d => 9 class 1 (3,0) (4,0) | running
block d.part
dump a 1 d => 38 (3,0) | paused

== each command of a save is refused once
# At Stop, CopyBegin, CopyPoll, CopyTake and Quit. Where a command were left out, or one sent too many,
# a script would meet another one.
define a 1 boot 1 command 3 refuse; boot 1 command 6 refuse; boot 1 command 10 refuse; boot 1 command 16 refuse; boot 1 command 23 refuse => domain a 00000000-0000-4000-8000-000000000001, id -1 | shut off
start a 1 => ok (2,0) | running
save a 1 s => 9 class 1 | running
save a 1 s => 9 class 1 | running
save a 1 s => 9 class 1 (3,0) (4,0) | running
save a 1 s => 9 class 1 (3,0) (4,0) | running
save a 1 s => 9 class 1 (3,0) (4,0) | running
save a 1 s => ok (3,0) (5,4) | shut off

== no save begins without a guest
define a 1 => domain a 00000000-0000-4000-8000-000000000001, id -1 | shut off
save a 1 s => 55 shut off | shut off
dump a 1 d => 55 shut off | shut off
restore s => 9 class 21 | shut off

== a guest does not end whose state was not written
define a 1 => domain a 00000000-0000-4000-8000-000000000001, id -1 | shut off
start a 1 => ok (2,0) | running
block s.part
save a 1 s => 38 (3,0) (4,0) | running
restore s => 9 class 21 | running
unblock s.part
save a 1 s => ok (3,0) (5,4) | shut off
restore s => ok (2,2) | running

== a save does not go on whose boot has ended
define a 1 boot 1 command 5 end => domain a 00000000-0000-4000-8000-000000000001, id -1 | shut off
start a 1 => ok (2,0) | running
save a 1 s => 201 boot 1 (3,0) (5,2) | shut off
restore s => 9 class 21 | shut off
