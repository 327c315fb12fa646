Snapshots are taken, deleted and gone back to. Which one is the current one is seen by the parent of the
next that is taken.

Each line has a request, and after `=>` what it is answered. (2,0) and the like are the events that
listeners are to be told by it; nobody can listen yet, so they are kept for a later player, and not
compared. After `|` is the domain's state then. README.md has all of the notation.

== children take the parent of a snapshot that goes
define a 1 => domain a 00000000-0000-4000-8000-000000000001, id -1 | shut off
start a 1 => ok (2,0) | running
snapshot a 1 s1 => s1 (3,0) (4,0) | running
snapshot a 1 s2 => s2 (3,0) (4,0) | running
snapshot a 1 s3 => s3 (3,0) (4,0) | running
parent a 1 s2 => s1
parent a 1 s3 => s2
delete a 1 s2 0 => ok | running
snapshots a 1 => names s1 s3
parent a 1 s1 => no parent
parent a 1 s3 => s1
revert a 1 s1 => ok (5,6) (2,3) | running
snapshots a 1 => names s1 s3
parent a 1 s3 => s1
snapshot a 1 s1 => 208 s1 | running
snapshot a 1 s4 => s4 (3,0) (4,0) | running
parent a 1 s4 => s1

== children go with a snapshot
define a 1 => domain a 00000000-0000-4000-8000-000000000001, id -1 | shut off
start a 1 => ok (2,0) | running
snapshot a 1 s1 => s1 (3,0) (4,0) | running
snapshot a 1 s2 => s2 (3,0) (4,0) | running
snapshot a 1 s3 => s3 (3,0) (4,0) | running
delete a 1 s2 1 => ok | running
snapshots a 1 => names s1
delete a 1 s2 0 => 72 s2 | running
delete a 1 s1 0 => ok | running
snapshots a 1 => names
snapshot a 1 s4 => s4 (3,0) (4,0) | running
parent a 1 s4 => no parent

== a current one that goes with its children is replaced by the parent of the one that was deleted
define a 1 => domain a 00000000-0000-4000-8000-000000000001, id -1 | shut off
snapshot a 1 s1 => s1 | shut off
snapshot a 1 s2 => s2 | shut off
snapshot a 1 s3 => s3 | shut off
delete a 1 s2 1 => ok | shut off
snapshot a 1 s4 => s4 | shut off
parent a 1 s4 => s1

== an inactive domain goes back to a guest
define a 1 => domain a 00000000-0000-4000-8000-000000000001, id -1 | shut off
start a 1 => ok (2,0) | running
snapshot a 1 s1 => s1 (3,0) (4,0) | running
snapshot a 1 s2 => s2 (3,0) (4,0) | running
snapshot a 1 s3 => s3 (3,0) (4,0) | running
destroy a 1 => ok (5,1) | shut off
undefine a 1 => 55 shut off | shut off
revert a 1 s1 => ok (2,3) | running
lookup a => domain a 00000000-0000-4000-8000-000000000001, id 2
snapshots a 1 => names s1 s2 s3
parent a 1 s1 => no parent
parent a 1 s2 => s1
parent a 1 s3 => s2
snapshot a 1 s4 => s4 (3,0) (4,0) | running
parent a 1 s4 => s1

== a snapshot without a guest
define a 1 => domain a 00000000-0000-4000-8000-000000000001, id -1 | shut off
snapshot a 1 s => s | shut off
revert a 1 s => ok | shut off
start a 1 => ok (2,0) | running
revert a 1 s => ok (5,6) | shut off

== a guest that was paused is gone back to paused
define a 1 => domain a 00000000-0000-4000-8000-000000000001, id -1 | shut off
start a 1 => ok (2,0) | running
suspend a 1 => ok (3,0) | paused
snapshot a 1 s => s | paused
resume a 1 => ok (4,0) | running
revert a 1 s => ok (5,6) (2,3) (3,0) | paused

== snapshots without a name
define a 1 => domain a 00000000-0000-4000-8000-000000000001, id -1 | shut off
snapshot a 1 => snap1 | shut off
snapshot a 1 => snap2 | shut off
snapshots a 1 => names snap1 snap2
parent a 1 snap1 => no parent
parent a 1 snap2 => snap1
snapshot a 1 s => s | shut off
parent a 1 s => snap2

== a snapshot's child stays where it goes alone
define a 1 => domain a 00000000-0000-4000-8000-000000000001, id -1 | shut off
snapshot a 1 parent => parent | shut off
snapshot a 1 child => child | shut off
delete a 1 parent 0 => ok | shut off
delete a 1 child 0 => ok | shut off

== a snapshot's child goes with it where it is to
define a 1 => domain a 00000000-0000-4000-8000-000000000001, id -1 | shut off
snapshot a 1 parent => parent | shut off
snapshot a 1 child => child | shut off
delete a 1 parent 1 => ok | shut off
delete a 1 child 0 => 72 child | shut off

== refusals on the way of a snapshot and of a revert
# At CopyBegin of the first snapshot, and at LoadState of the revert.
define a 1 boot 1 command 4 refuse; boot 1 command 11 refuse => domain a 00000000-0000-4000-8000-000000000001, id -1 | shut off
start a 1 => ok (2,0) | running
snapshot a 1 s => 9 class 1 | running
snapshots a 1 => names
snapshot a 1 s => s (3,0) (4,0) | running
revert a 1 s => 9 class 1 | running
