Guests that end, refuse or are lost while a call is away, as their scripts say: at the C-th command of
the B-th boot. Since a start sends two commands, the third one is the first of the next call. So what a
call asks of its guest is seen by where the script meets it.

Each line has a request, and after `=>` what it is answered. (2,0) and the like are the events that
listeners are to be told by it; nobody can listen yet, so they are kept for a later player, and not
compared. After `|` is the domain's state then. README.md has all of the notation.

== boot 1 command 1 end
define a 1 boot 1 command 1 end => domain a 00000000-0000-4000-8000-000000000001, id -1 | shut off
start a 1 => 201 boot 1 (5,2) | shut off

== boot 1 command 2 end
define a 1 boot 1 command 2 end => domain a 00000000-0000-4000-8000-000000000001, id -1 | shut off
start a 1 => 201 boot 1 (5,2) | shut off
start a 1 => ok (2,0) | running

== boot 1 command 3 end
define a 1 boot 1 command 3 end => domain a 00000000-0000-4000-8000-000000000001, id -1 | shut off
start a 1 => ok (2,0) | running
suspend a 1 => 201 boot 1 (5,2) | shut off

== boot 1 command 4 end
define a 1 boot 1 command 4 end => domain a 00000000-0000-4000-8000-000000000001, id -1 | shut off
start a 1 => ok (2,0) | running
attach a 1 vda => 201 boot 1 (5,2) | shut off
start a 1 => ok (2,0) | running
slots a 1 => slots
lookup a => domain a 00000000-0000-4000-8000-000000000001, id 2

== boot 1 command 4 refuse
define a 1 boot 1 command 4 refuse => domain a 00000000-0000-4000-8000-000000000001, id -1 | shut off
start a 1 => ok (2,0) | running
attach a 1 vda => 9 class 1 | running
slots a 1 => slots
attach a 1 vda => ok | running
slots a 1 => slots vda:0x02

== boot 1 command 3 lost
define a 1 boot 1 command 3 lost => domain a 00000000-0000-4000-8000-000000000001, id -1 | shut off
start a 1 => ok (2,0) | running
suspend a 1 => 202 (5,5) | shut off

== calls whose boot is gone
define a 1 => domain a 00000000-0000-4000-8000-000000000001, id -1 | shut off
start a 1 => ok (2,0) | running
kick a 1 3 => ok (5,2) | shut off
destroy a 1 => 55 shut off | shut off
start a 1 => ok (2,0) | running
lookup a => domain a 00000000-0000-4000-8000-000000000001, id 2

== a boot ends whose monitor is lost at a call
define a 1 boot 1 command 3 lost => domain a 00000000-0000-4000-8000-000000000001, id -1 | shut off
start a 1 => ok (2,0) | running
attach a 1 vda => 202 (5,5) | shut off
stats a 1 => 55 shut off | shut off

== a boot ends whose monitor is lost at an undo
# The device is refused, and the link is lost at the command that takes its backend away again.
define a 1 boot 1 command 4 refuse; boot 1 command 5 lost => domain a 00000000-0000-4000-8000-000000000001, id -1 | shut off
start a 1 => ok (2,0) | running
attach a 1 vdb => 9 class 1 (5,5) | shut off

== a boot ends whose monitor is lost at a poll
define a 1 boot 1 command 5 lost => domain a 00000000-0000-4000-8000-000000000001, id -1 | shut off
start a 1 => ok (2,0) | running
save a 1 s => 202 (3,0) (5,5) | shut off
restore s => 9 class 21 | shut off

== a refused device is undone, and its key and its slot are free
define a 1 boot 1 command 4 refuse; boot 1 command 8 refuse => domain a 00000000-0000-4000-8000-000000000001, id -1 | shut off
start a 1 => ok (2,0) | running
attach a 1 vda => 9 class 1 | running
attach a 1 vdb => ok | running
attach a 1 vda => 9 class 1 | running
attach a 1 vda => ok | running
slots a 1 => slots vdb:0x02 vda:0x03

== a call does not go on after an ask that was refused
# Each time the backend is refused, which is the first command of the call; else the second call would
# not meet command 4.
define a 1 boot 1 command 3 refuse; boot 1 command 4 refuse => domain a 00000000-0000-4000-8000-000000000001, id -1 | shut off
start a 1 => ok (2,0) | running
attach a 1 vdb => 9 class 1 | running
attach a 1 vdb => 9 class 1 | running
attach a 1 vdb => ok | running

== a suspend and a resume ask the guest
define a 1 boot 1 command 3 refuse; boot 1 command 5 refuse => domain a 00000000-0000-4000-8000-000000000001, id -1 | shut off
start a 1 => ok (2,0) | running
suspend a 1 => 9 class 1 | running
suspend a 1 => ok (3,0) | paused
suspend a 1 => ok | paused
resume a 1 => 9 class 1 | paused
resume a 1 => ok (4,0) | running
resume a 1 => ok | running

== a guest that is not set going is ended
define a 1 boot 1 command 1 refuse => domain a 00000000-0000-4000-8000-000000000001, id -1 | shut off
start a 1 => 9 class 1 (5,5) | shut off
start a 1 => ok (2,0) | running
