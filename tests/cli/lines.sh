#!/usr/bin/env bash
# Runs the program named on the command line on scripts of one line each or of a few, on the booted line of the
# nodes 1, 2 and 3 with the application named: the answer has to be the one that stands beside. A line is read
# by printf's %b, so it may have escapes, and it has no line feed behind it.
set -u
program=$(realpath "$1")
passed=0
failed=0
room=$(mktemp -d)
trap 'rm -rf "$room"' EXIT
cd "$room" || exit 1
for app in idle token mutex routes; do
  printf 'nodes = [1, 2, 3]\nlinks = [[1, 2], [2, 3]]\napp = "%s"\n' $app >$app.toml
done
# the same of so many sessions
for modulus in 2 3 8 4294967295; do
  { cat idle.toml; echo "modulus = $modulus"; } >idle-$modulus.toml
done
# two components: 2 leads 1, and 7 leads 4
for app in idle token mutex routes; do
  printf 'nodes = [1, 2, 4, 7]\nlinks = [[1, 2], [4, 7]]\napp = "%s"\n' $app >apart-$app.toml
done
# 129 nodes and as many links as a topology may have: only of the last nodes are some without a link
links=$(
  for a in {1..129}; do
    for ((b = a + 1; b <= 129; b++)); do echo "[$a, $b]"; done
  done | head -n 8192 | paste -s -d ,
)
printf 'nodes = [%s]\nlinks = [%s]\napp = "idle"\n' "$(seq -s , 129)" "$links" >full.toml

answers() { # APPLICATION LINE ANSWER
  printf '%b' "$2" >script
  printf '%b\n' "$3" >wanted
  local status wanted=0
  case $3 in 'bad line'*) wanted=2 ;; esac
  timeout 60 "$program" replay "$1.toml" script >stdout 2>stderr
  status=$?
  if [ "$status" -eq "$wanted" ] && cmp -s stdout wanted && [ ! -s stderr ]; then
    passed=$((passed + 1))
  else
    failed=$((failed + 1))
    echo "lines $1 '$2': status $status, wanted $wanted and '$3'"
    head -c 300 stdout stderr
  fi
}

# Each line of standard input is a line of a script, whose answer is the one named.
each() { # APPLICATION ANSWER
  local line
  while IFS= read -r line; do
    answers "$1" "$line" "$2"
  done
}

# ---- lines that have another spelling than a command's

each idle 'bad line 1' <<'LINES'
open\t3
open 3\r
open +3
open -3
open  3
 open 3
open 3 
open 03
open 4294967296
open 12345678901
Open 3
open
open 3 4
relay 2
relay 2 01
show 
show 1 2
show pass
newest 
newest 3
Newest
ready 1
ready 
enabled
enabled 1 2
enabled 01
Check
check 
 check
check  1
check 1 
check 01
check +1
check 1 2
check pass
check 4294967296
checks
check\t1
alarm
alarm 
alarm 1 2
alarm 01
alarm pass
alarm 4294967296
Alarm 1
watch
watch 
watch 1 2
watch 01
watch pass
watch 4294967296
Watch 1
move
move 1
move request 1
moves 
moves 1 2
moves 1 
moves  1
moves 01
moves +1
moves pass
moves 4294967296
Moves
Moves 1
invariant 
invariant 1
 invariant
Invariant
invariants
snapshot 
snapshot 1
 snapshot
Snapshot
snapshots
reset-snapshot 1
adopt 1
adopt 3 1 2
claim
claim pass
claim 3 4
open \xc3\xb6
open 3\0000
 
LINES
answers idle '\n---' 'bad line 2'

each token 'bad line 1' <<'LINES'
act
act 3
act 3 
act 3 256
act 3 256 2
act 3 01
act 3 2nd
act 3 -
act 3 pa\tss
act 3 pa\x7fss
act 3 pass 
act 3 pass 02
act 3 pass 2 
act 3 pass 2 4
act 3 pass 4294967296
act 3  1
act 3 1  2
act 03 pass
act pass 3
 act 3 pass
acts 3 pass
LINES

# ---- a number is the case itself, and a word that is no case's name stands for case 0

each token applied <<'LINES'
act 3 1 2
act 3 pass 2
LINES

each token 'refused NoSuchCase' <<'LINES'
act 3 0 2
act 3 3 2
act 3 255 2
act 3 255
act 3 0
act 3 Pass 2
act 3 pas 2
act 3 passe 2
act 3 passed 2
act 3 p!~
act 3 p~!: 2
act 3 Take
act 3 enter
LINES

each idle 'refused NoSuchCase' <<'LINES'
act 3 pass 2
act 3 1
LINES

answers token 'act 3 2 2' 'refused NotEnabled'
answers token 'act 3 take' 'refused WantsNeighbour'
answers token 'act 3 1' 'refused WantsNeighbour'
answers token 'act 0 take 4294967295' 'refused StrangeNode'
answers token 'act 4294967295 255 4294967295' 'refused StrangeNode'
answers token 'act 3 take 4294967295' 'refused StrangeNeighbour'

# ---- numbers at their ends

each idle 'refused StrangeNode' <<'LINES'
claim 4
follow 0
adopt 65536 7
open 0
finish 65535
mend 4294967295
relay 4294967295 4294967295
show 4294967295
enabled 0
check 0
check 4294967295
alarm 0
alarm 4294967295
watch 4
watch 4294967295
moves 0
moves 4
moves 4294967295
LINES

# ---- the checker: nothing is damaged, and a watch that finds nothing asks for nothing

for app in idle token mutex routes; do
  each $app 'faults 0' <<'LINES'
check
check 1
check 3
LINES
  each $app quiet <<'LINES'
alarm 1
alarm 3
watch 1
watch 3
LINES
done
answers idle 'watch 3\nopen 3\nready' 'quiet\nrefused NotEnabled\nready -'
answers token 'request 3\nopen 3\ncheck\ncheck 2\nalarm 3\nwatch 2' 'applied\napplied\nfaults 0\nfaults 0\nquiet\nquiet'

# ---- the moves of nodes, in their order

answers idle moves 'move request 1\nmove request 2\nmove request 3'
answers idle 'moves 2' 'move request 2'
answers idle 'request 1\nmoves 1\nmoves 2' 'applied\nmove request 2\nmove relay 2 1'
answers idle 'request 3\nopen 3\nmoves' 'applied\napplied\nmove request 1\nmove join 2\nmove request 2'
answers idle 'request 3\nmoves 3' 'applied\nmove open 3'
answers token 'moves 3' 'move request 3\nmove act 3 1 2'
answers token 'act 3 pass 2\nmoves 2\nmoves 3' 'applied\nmove request 2\nmove act 2 2 3\nmove request 3'
answers mutex moves 'move request 1\nmove act 1 1\nmove request 2\nmove request 3'
answers mutex 'act 1 enter\nmoves 1' 'applied\nmove request 1\nmove act 1 2'
answers routes 'moves 2' 'move request 2\nmove act 2 1 1\nmove act 2 1 3'
answers idle 'fault tree 1 3 2 1\nmoves 1' 'disturbed\nmove follow 1\nmove request 1'
answers idle 'fault tree 2 1 2 7\nmoves 2' 'disturbed\nmove claim 2\nmove adopt 2 1\nmove adopt 2 3\nmove request 2'
answers idle 'fault wave 1 reset 5\nmoves 1' 'disturbed\nmove mend 1\nmove finish 1'
answers idle 'fault off 2\nmoves 1\nmoves 2' 'disturbed\nmove claim 1\nmove request 1\nrefused StrangeNode'
answers idle 'fault off 1\nfault off 2\nfault off 3\nmoves\nready' 'disturbed\ndisturbed\ndisturbed\nready -'

# ---- the invariant, of each component

for app in idle token mutex routes; do
  answers $app invariant 'invariant 3 holds'
  answers $app 'request 1\nrelay 2 1\nrelay 3 2\nopen 3\njoin 2\ninvariant' \
    'applied\napplied\napplied\napplied\napplied\ninvariant 3 holds'
done
answers token 'fault local 1 hold/-/-\ninvariant\ncheck' 'disturbed\ninvariant 3 fails tokens 2\nfaults 0'
answers token 'fault local 3 free/-/-\ninvariant\nshow 3' \
  'disturbed\ninvariant 3 fails tokens 0\nnode 3 tree 3 3 0 wave normal 0 local free/-/-'
answers token 'fault down 2 3\ninvariant' 'disturbed\ninvariant 2 fails tokens 0\ninvariant 3 holds'
answers idle 'fault off 2\ninvariant' 'disturbed\ninvariant 1 holds\ninvariant 3 holds'
answers idle 'fault off 1\nfault off 2\nfault off 3\ninvariant\nready' 'disturbed\ndisturbed\ndisturbed\nready -'

# ---- snapshots

answers idle snapshot 'reset-snapshot 1
node 1 tree 3 2 2 wave normal 0 local -
node 2 tree 3 3 1 wave normal 0 local -
node 3 tree 3 3 0 wave normal 0 local -
link 1 2
link 2 3'
answers apart-mutex snapshot 'reset-snapshot 1
node 1 tree 2 2 1 wave normal 0 local out/0
node 2 tree 2 2 0 wave normal 0 local out/0
node 4 tree 7 7 1 wave normal 0 local out/0
node 7 tree 7 7 0 wave normal 0 local out/0
link 1 2
link 4 7'
answers token 'fault up 3 1\nfault down 3 2\nfault off 2\nsnapshot' 'disturbed\ndisturbed\ndisturbed\nreset-snapshot 1
node 1 tree 3 2 2 wave normal 0 local free/-/-
node 3 tree 3 3 0 wave normal 0 local hold/-/-
link 1 3'
answers token 'fault down 1 2\nfault off 3\nsnapshot' 'disturbed\ndisturbed\nreset-snapshot 1
node 1 tree 3 2 2 wave normal 0 local free/-/-
node 2 tree 3 3 1 wave normal 0 local free/-/-
link -'
answers idle 'fault off 1\nfault off 2\nfault off 3\nsnapshot' 'disturbed\ndisturbed\ndisturbed
reset-snapshot 1
link -'

# ---- the newest states of an application without states

answers idle 'newest' 'newest 1 -\nnewest 2 -\nnewest 3 -'
answers idle 'request 3\nopen 3\nnewest' 'applied\napplied\nnewest 1 unjoined\nnewest 2 unjoined\nnewest 3 -'
# ---- faults with another spelling than a command's

each idle 'bad line 1' <<'LINES'
fault
fault 
fault tree
fault tree 1
fault tree 1 3 2
fault tree 1 3 2 2 2
fault tree 1 3 2 2 
fault tree 01 3 2 2
fault tree 1 03 2 2
fault tree 1 3 02 2
fault tree 1 3 2 02
fault tree 1 3 2 +2
fault tree 1 3 2 -1
fault tree 1 3 2 two
fault tree 4294967296 3 2 2
fault tree 1 4294967296 2 2
fault tree 1 3 4294967296 2
fault tree 1 3 2 4294967296
fault  tree 1 3 2 2
fault tree  1 3 2 2
fault tree 1 3 2  2
 fault tree 1 3 2 2
fault\ttree 1 3 2 2
fault tree 1 3 2\t2
fault tree 1 3 2 2\r
Fault tree 1 3 2 2
fault Tree 1 3 2 2
fault trees 1 3 2 2
faults tree 1 3 2 2
tree 1 3 2 2
fault wave
fault wave 1
fault wave 1 normal
fault wave 1 0
fault wave 1 0 0
fault wave 1 0 normal
fault wave 1 Normal 0
fault wave 1 RESET 0
fault wave 1 restart 0
fault wave 1 norma 0
fault wave 1 normals 0
fault wave 1 normal 00
fault wave 1 normal 01
fault wave 1 normal -1
fault wave 1 normal 4294967296
fault wave 1 normal 0 0
fault wave 1 normal 0 
fault wave 1 normal  0
fault wave 1  0
fault wave 01 normal 0
fault wave 4294967296 normal 0
fault wave normal 0
fault local
fault local 1
fault local 1 
fault local 1  -
fault local 1 - -
fault local 1 - 
fault local -
fault local - 1
fault local 01 -
fault local +1 -
fault local 4294967296 -
fault local 1 -\x7f
fault local 1 \xc3\xb6
fault local 1 \xff
fault local 1 -\t
fault local 1 -\x1f
fault local 1 -\r
fault local 1 -\0000
fault Local 1 -
fault down
fault down 1
fault down 1 2 3
fault down 01 2
fault down 1 02
fault down 1  2
fault down 1 2 
fault down 1,2
fault down -1 2
fault down 4294967296 2
fault down 1 4294967296
fault Down 1 2
fault up
fault up 1
fault up 1 3 2
fault up 01 3
fault up 1 03
fault up 1  3
fault up 1 3 
fault up 1-3
fault up 1 4294967296
fault UP 1 3
fault off
fault off 
fault off 01
fault off 1 
fault off  1
fault off 1 2
fault off -1
fault off one
fault off 4294967296
fault offs 1
fault of 1
fault Off 1
fault off\t1
fault off 1\r
fault on
fault on 
fault on 03
fault on 1 
fault on  1
fault on 1 1
fault on 4294967296
fault one 1
fault On 1
off 1
on 1
fault 1
draw
draw 
draw -1
draw +1
draw 00
draw 01
draw 4294967296
draw 12345678901
draw 7 7
draw 7 
draw  7
 draw 7
draw seven
draw fault tree 1 3 2 2
drawn fault tree 1 3 2 2
drawn 7
Draw 7
disturbed
LINES

# ---- faults, on the line whose application has no local states

each idle disturbed <<'LINES'
fault tree 1 3 2 2
fault tree 1 1 1 0
fault tree 3 65535 65535 4294967295
fault tree 2 9 1 0
fault wave 1 normal 0
fault wave 2 initiate 1
fault wave 3 reset 4294967295
fault local 1 -
fault up 1 3
fault up 3 1
fault down 1 2
fault down 2 1
fault down 3 2
fault off 1
fault off 2
fault off 3
LINES

each idle 'refused NodeIsUp' <<'LINES'
fault on 1
fault on 2
fault on 3
LINES

each idle 'refused StrangeNode' <<'LINES'
fault off 0
fault off 4
fault off 65535
fault off 4294967295
fault on 0
fault on 4
fault on 65536
fault on 4294967295
fault tree 0 1 1 0
fault tree 4 0 0 0
fault tree 4294967295 65536 65536 4294967295
fault wave 0 normal 0
fault wave 4294967295 reset 4294967295
fault local 4 -
fault local 4 x
fault down 1 4
fault down 4 1
fault down 4 4
fault down 0 0
fault up 1 4
fault up 4 1
fault up 4 4
fault up 0 0
fault up 4294967295 1
LINES

each idle 'refused BadValue' <<'LINES'
fault tree 1 0 1 0
fault tree 1 1 0 0
fault tree 1 0 0 4294967295
fault tree 1 65536 1 0
fault tree 1 1 65536 0
fault tree 1 4294967295 1 0
fault up 1 1
fault up 3 3
LINES

each idle 'refused BadLocal' <<'LINES'
fault local 1 x
fault local 1 --
fault local 1 0
fault local 1 #
fault local 1 !
fault local 1 ~
fault local 1 hold/-/-
LINES

each idle 'refused NoSuchLink' <<'LINES'
fault down 1 3
fault down 3 1
fault down 2 2
LINES

each idle 'refused LinkIsThere' <<'LINES'
fault up 1 2
fault up 2 1
fault up 3 2
LINES

answers idle 'fault up 3 1\nfault up 1 3\nfault down 1 2\nfault down 2 1\nfault down 3 2\nfault down 1 3\nfault down 3 1' \
  'disturbed\nrefused LinkIsThere\ndisturbed\nrefused NoSuchLink\ndisturbed\ndisturbed\nrefused NoSuchLink'
answers idle 'fault wave 2 reset 5\nshow 2\nfault tree 2 7 9 11\nshow 2' \
  'disturbed\nnode 2 tree 3 3 1 wave reset 5 local -\ndisturbed\nnode 2 tree 7 9 11 wave reset 5 local -'
answers idle 'fault tree 1 0 1 0\nfault local 1 x\nfault down 1 3\nshow 1\ncheck' \
  'refused BadValue\nrefused BadLocal\nrefused NoSuchLink\nnode 1 tree 3 2 2 wave normal 0 local -\nfaults 0'

# ---- a network that falls into parts: registers stay as they were, and each part has a leader and sessions of its own

split='disturbed\nlink 1 1 tree 3\nfaults 1\napplied\nfaults 0\napplied\napplied\ncomplete 1\nnewest 1 -\nnewest 2 -\nnewest 3 -'
joined='disturbed\nlink 1 2 tree 7\nfaults 1\napplied\nlink 1 2 wave 9\nfaults 1\napplied\nfaults 0'
answers idle "$(printf '%s\\n' 'fault down 1 2' check 'claim 1' check 'request 1' 'open 1' 'finish 1' newest \
  'fault up 1 2' check 'adopt 1 2' check 'mend 1' check)" "$split\n$joined"
# the other part: node 2 was no root before, and node 1 follows it
answers idle 'fault down 2 3\ncheck\nclaim 2\ncheck\nfollow 1\ncheck\nshow' \
  'disturbed\nlink 2 2 tree 3\nfaults 1\napplied\nlink 1 2 tree 5\nlink 2 1 tree 7\nfaults 2\napplied\nfaults 0
node 1 tree 2 2 1 wave normal 0 local -\nnode 2 tree 2 2 0 wave normal 0 local -\nnode 3 tree 3 3 0 wave normal 0 local -'
# who leads a part turns on the links alone, whatever the registers say
answers idle 'fault down 2 3\nfault wave 2 normal 5\nnewest\nfault up 2 3\nnewest' \
  'disturbed\ndisturbed\nnewest 1 unjoined\nnewest 2 -\nnewest 3 -\ndisturbed\nnewest 1 -\nnewest 2 unjoined\nnewest 3 -'
# a part starts with a token of its own, and what is there before its reset is what was there before
answers token 'fault down 1 2\nshow 1\nclaim 1\nrequest 1\nopen 1\nnewest' \
  'disturbed\nnode 1 tree 3 2 2 wave normal 0 local free/-/-\napplied\napplied\napplied
newest 1 hold/-/-\nnewest 2 free/-/-\nnewest 3 hold/-/-'

# ---- a topology of two components

answers apart-idle show "$(printf 'node %s wave normal 0 local -\\n' '1 tree 2 2 1' '2 tree 2 2 0' '4 tree 7 7 1')node 7 tree 7 7 0 wave normal 0 local -"
answers apart-idle 'check\nready' 'faults 0\nready -'
answers apart-token 'newest\nready' \
  'newest 1 free/-/-\nnewest 2 hold/-/-\nnewest 4 free/-/-\nnewest 7 hold/-/-\nready 2 7'
answers apart-token 'request 2\nopen 2\nnewest\nact 2 pass 1\nact 1 take 2\nact 7 pass 4\nact 4 take 7\nnewest' \
  'applied\napplied\nnewest 1 unjoined\nnewest 2 hold/-/-\nnewest 4 free/-/-\nnewest 7 hold/-/-
applied\nrefused Disagrees 2\napplied\napplied
newest 1 unjoined\nnewest 2 free/1/-\nnewest 4 hold/-/7\nnewest 7 free/4/-'
# a wave ends in its own component, and the other one may be in the middle of another
answers apart-idle 'request 7\nopen 7\nrequest 1\nrelay 2 1\nopen 2\njoin 1\nfinish 1\nfinish 2\nnewest\njoin 4\nfinish 4\nfinish 7' \
  'applied\napplied\napplied\napplied\napplied\napplied\napplied\ncomplete 1
newest 1 -\nnewest 2 -\nnewest 4 unjoined\nnewest 7 -\napplied\napplied\ncomplete 1'
# K is the number of all nodes
answers apart-idle 'fault tree 1 2 2 3\nenabled 1\ncheck' 'disturbed\nenabled 1 tree 6,8 wave 1 act -\nlink 1 2 tree 6\nfaults 1'
answers apart-idle 'fault tree 1 2 2 4\nenabled 1\ncheck' \
  'disturbed\nenabled 1 tree 4,8 wave 1 act -\nlink 1 1 tree 4\nlink 1 2 tree 8\nfaults 2'
answers apart-idle 'adopt 1 4\nrelay 7 2\nfault down 2 4' 'refused StrangeNeighbour\nrefused StrangeNeighbour\nrefused NoSuchLink'
# joined by a link, they have one leader
answers apart-routes 'fault up 2 4\ncheck\nadopt 2 4\nadopt 1 2\ncheck\nfollow 1\ncheck\nact 4 pull 2\nact 4 pull 7\nact 2 pull 4\nact 1 pull 2\nshow 1' \
  'disturbed\nlink 2 4 tree 7\nfaults 1\napplied\napplied\nfaults 0\nrefused NotEnabled\nfaults 0\napplied\napplied\napplied\napplied
node 1 tree 7 2 3 wave normal 0 local 1:0:1,2:1:2,4:2:2,7:3:2'

# ---- nodes that go down and up: one that is down is like none, but that K counts it, and it comes up as if alone

answers token "$(printf '%s\\n' 'fault off 3' 'request 3' 'claim 2' 'follow 1' check 'request 2' 'open 2' newest 'fault on 3' \
  'show 3' 'fault on 3' 'fault off 9')" 'disturbed\nrefused StrangeNode\napplied\napplied\nfaults 0\napplied\napplied
newest 1 unjoined\nnewest 2 hold/-/-\ndisturbed\nnode 3 tree 3 3 0 wave normal 0 local hold/-/-\nrefused NodeIsUp
refused StrangeNode'
# node 2 is no neighbour of the others any more, and no command and no fault but `fault on` knows it
answers idle 'fault off 2\nfault off 2\nshow\nnewest\nready\ncheck' \
  'disturbed\nrefused StrangeNode\nnode 1 tree 3 2 2 wave normal 0 local -\nnode 3 tree 3 3 0 wave normal 0 local -
newest 1 -\nnewest 3 -\nready 1\nlink 1 1 tree 3\nfaults 1'
for line in 'request 2' 'claim 2' 'adopt 2 1' 'act 2 pass 1' 'show 2' 'enabled 2' 'check 2' 'alarm 2' 'watch 2' \
  'fault tree 2 1 1 0' 'fault tree 2 0 0 0' 'fault wave 2 reset 7' 'fault local 2 -' 'fault local 2 x' 'fault down 1 2' \
  'fault down 2 3' 'fault up 1 2' 'fault up 3 2' 'fault up 2 2' 'fault off 2'; do
  answers idle "fault off 2\n$line" 'disturbed\nrefused StrangeNode'
  answers idle "fault off 2\nfault off 1\nfault off 3\n$line" 'disturbed\ndisturbed\ndisturbed\nrefused StrangeNode'
done
for line in 'adopt 1 2' 'relay 3 2' 'act 1 pass 2'; do
  answers token "fault off 2\n$line" 'disturbed\nrefused StrangeNeighbour'
done
# registers may name it
answers idle 'fault off 2\nfault tree 1 2 2 0\nshow 1\ncheck' \
  'disturbed\ndisturbed\nnode 1 tree 2 2 0 wave normal 0 local -\nlink 1 1 tree 3\nfaults 1'
# its links don't come back by themselves, nor does what it was
answers idle 'request 2\nfault off 2\nfault on 2\nshow 2\nfault down 1 2\nadopt 1 2\nfault up 1 2\nfault up 2 3\ncheck\nadopt 2 3\ncheck\nshow 1' \
  'applied\ndisturbed\ndisturbed\nnode 2 tree 2 2 0 wave normal 0 local -\nrefused NoSuchLink\nrefused StrangeNeighbour
disturbed\ndisturbed\nlink 1 2 tree 5\nlink 2 1 tree 7\nlink 2 3 tree 7\nfaults 3\napplied\nfaults 0
node 1 tree 3 2 2 wave normal 0 local -'
# sessions go on in the part that is left, and a node that comes up begins at 0
answers idle-8 'request 3\nopen 3\nfault off 3\nnewest\nfault on 3\nnewest\nshow 3' \
  'applied\napplied\ndisturbed\nnewest 1 -\nnewest 2 -\ndisturbed\nnewest 1 -\nnewest 2 -\nnewest 3 -\nnode 3 tree 3 3 0 wave normal 0 local -'
# an action reads who is there
answers mutex 'act 2 enter\nfault off 1\nact 2 enter\nact 3 enter\nfault off 3\nact 2 leave\nact 2 enter' \
  'refused NotEnabled\ndisturbed\napplied\nrefused NotEnabled\ndisturbed\napplied\napplied'
# K counts those that are down
answers apart-idle 'fault off 7\nfault off 4\nfault tree 1 2 2 3\nenabled 1\nfault tree 1 2 2 4\nenabled 1' \
  'disturbed\ndisturbed\ndisturbed\nenabled 1 tree 6,8 wave 1 act -\ndisturbed\nenabled 1 tree 4,8 wave 1 act -'
# all of them may be down
down='fault off 1\nfault off 2\nfault off 3'
gone='disturbed\ndisturbed\ndisturbed'
answers token "$down\nshow\nnewest\nready\ncheck\nshow 1\ncheck 2\nrequest 3" \
  "$gone\nready -\nfaults 0\nrefused StrangeNode\nrefused StrangeNode\nrefused StrangeNode"
answers token "$down\nfault on 2\nshow\nnewest\nready\ncheck\nrequest 2\nopen 2\nfinish 2\nfault on 1\nfault up 2 1\nadopt 1 2\nmend 1\nnewest" \
  "$gone\ndisturbed\nnode 2 tree 2 2 0 wave normal 0 local hold/-/-\nnewest 2 hold/-/-\nready -\nfaults 0
applied\napplied\ncomplete 1\ndisturbed\ndisturbed\napplied\napplied\nnewest 1 hold/-/-\nnewest 2 hold/-/-"
# faults are drawn over all nodes
answers idle "$down\ndraw 0\ndraw 1\ndraw 2\ndraw 7" "$gone\ndrawn fault up 3 3\nrefused StrangeNode
drawn fault down 3 2\nrefused StrangeNode\ndrawn fault tree 3 2 1 0\nrefused StrangeNode\ndrawn fault wave 3 initiate 4\nrefused StrangeNode"
answers idle 'fault off 3\ndraw 4294967295\ndraw 2\nshow 2' \
  'disturbed\ndrawn fault tree 2 3 1 2\ndisturbed\ndrawn fault tree 3 2 1 0\nrefused StrangeNode\nnode 2 tree 3 1 2 wave normal 0 local -'

# ---- the limit of links: it is asked after the others, and a link that went down leaves room for one

answers full 'fault up 128 129' 'refused BadValue'
answers full 'fault up 1 2' 'refused LinkIsThere'
answers full 'fault up 129 129' 'refused BadValue'
answers full 'fault up 129 130' 'refused StrangeNode'
answers full 'fault down 1 2\nfault up 128 129\nfault up 1 2' 'disturbed\ndisturbed\nrefused BadValue'
answers full 'fault off 1\nfault up 128 129\nfault on 1\nfault up 1 2' 'disturbed\ndisturbed\ndisturbed\ndisturbed'

# ---- a node that is down

strange='refused StrangeNode'
answers idle 'fault off 2\nshow\nshow 2\nenabled 2\ncheck 2\nalarm 2\nwatch 2\nfault up 1 2\nrelay 1 2\nready' \
  "disturbed\nnode 1 tree 3 2 2 wave normal 0 local -\nnode 3 tree 3 3 0 wave normal 0 local -
$strange\n$strange\n$strange\n$strange\n$strange\n$strange\nrefused StrangeNeighbour\nready 1"
answers idle 'fault off 2\nfault off 1\nfault off 3\nshow\nnewest\nready\ncheck' \
  'disturbed\ndisturbed\ndisturbed\nready -\nfaults 0'

# ---- sessions modulo M: the one after a session is one more modulo M, of those too that only a fault can leave

# What node 3 shows after it has opened the session after this one.
opens() { # MODULUS SESSION AFTER
  answers "idle$1" "fault wave 3 initiate $2\nopen 3\nshow 3" \
    "disturbed\napplied\nnode 3 tree 3 3 0 wave reset $3 local -"
}

opens '' 0 1
opens '' 4294967294 4294967295
opens '' 4294967295 0
opens -2 0 1
opens -2 1 0
opens -2 2 1
opens -2 3 0
opens -2 4294967295 0
opens -3 1 2
opens -3 2 0
opens -3 4294967295 1
opens -8 7 0
opens -8 8 1
opens -8 9 2
opens -4294967295 4294967293 4294967294
opens -4294967295 4294967294 0
opens -4294967295 4294967295 1

wave='request 1\nrelay 2 1\nrelay 3 2\nopen 3\njoin 2\njoin 1\nfinish 1\nfinish 2\nfinish 3'
steps='applied\napplied\napplied\napplied\napplied\napplied\napplied\napplied'
answers idle "$wave\n$wave\n$wave" "$steps\ncomplete 1\n$steps\ncomplete 2\n$steps\ncomplete 3"
answers idle-2 "$wave\n$wave\n$wave" "$steps\ncomplete 1\n$steps\ncomplete 0\n$steps\ncomplete 1"
answers idle-3 "$wave\n$wave\n$wave" "$steps\ncomplete 1\n$steps\ncomplete 2\n$steps\ncomplete 0"

# A node whose father is reset in this session may join, or is late, or neither.
under() { # MODULUS SESSION FATHERS_SESSION ROWS CHECK
  answers "idle$1" "fault wave 1 normal $2\nfault wave 2 reset $3\nfault wave 3 reset $3\nenabled 1\ncheck" \
    "disturbed\ndisturbed\ndisturbed\nenabled 1 tree - wave $4 act -\n$5"
}

late='link 1 2 wave 11\nfaults 1'
under '' 0 1 1,4 'faults 0'
under '' 4294967295 0 1,4 'faults 0'
under '' 4294967295 1 1,11 "$late"
under '' 0 4294967295 1,11 "$late"
under -2 0 1 1,4 'faults 0'
under -2 1 0 1,4 'faults 0'
under -2 1 1 1 'faults 0'
under -2 0 2 1,11 "$late"
under -2 1 2 1,11 "$late"
under -2 2 0 1,11 "$late"
under -2 2 1 1,4 'faults 0'
under -2 3 0 1,4 'faults 0'
under -2 2 2 1 'faults 0'
under -3 2 0 1,4 'faults 0'
under -3 0 2 1,11 "$late"
under -8 9 2 1,4 'faults 0'
under -8 9 10 1,11 "$late"
under -8 7 8 1,11 "$late"
under -8 15 0 1,4 'faults 0'
under -4294967295 4294967295 1 1,4 'faults 0'
under -4294967295 4294967295 0 1,11 "$late"
under -4294967295 4294967294 4294967295 1,11 "$late"
# two sessions may have one after them, but they are two
answers idle-8 'fault wave 1 normal 1\nfault wave 2 normal 9\nfault wave 3 reset 2\ncheck\nmend 1\nshow 1\ncheck' \
  'disturbed\ndisturbed\ndisturbed\nlink 1 2 wave 9\nfaults 1\napplied\nnode 1 tree 3 2 2 wave normal 9 local -\nfaults 0'

# ---- drawn faults: the seeds were worked out apart

answers idle 'draw 0' 'drawn fault up 3 3\nrefused BadValue'
answers idle 'draw 1\ndraw 1' 'drawn fault down 3 2\ndisturbed\ndrawn fault down 3 2\nrefused NoSuchLink'
answers idle 'draw 2' 'drawn fault tree 3 2 1 0\ndisturbed'
answers idle 'draw 3' 'drawn fault up 1 2\nrefused LinkIsThere'
answers idle 'draw 7' 'drawn fault wave 3 initiate 4\ndisturbed'
answers idle 'draw 9' 'drawn fault down 1 1\nrefused NoSuchLink'
answers idle 'draw 22\ndraw 22' 'drawn fault up 3 1\ndisturbed\ndrawn fault up 3 1\nrefused LinkIsThere'
answers idle 'draw 4294967295' 'drawn fault tree 2 3 1 2\ndisturbed'

# ---- the local states of each application

each token disturbed <<'LINES'
fault local 1 hold/-/-
fault local 1 free/-/-
fault local 1 free/2,5/3
fault local 3 hold/1,65535/1,65535
LINES

each token 'refused BadLocal' <<'LINES'
fault local 1 -
fault local 1 hold
fault local 1 hold/
fault local 1 hold/-
fault local 1 hold/-/
fault local 1 hold/-/-/
fault local 1 hold/-/-/-
fault local 1 hold//-
fault local 1 Hold/-/-
fault local 1 held/-/-
fault local 1 free/3,2/-
fault local 1 free/2,2/-
fault local 1 free/2,/-
fault local 1 free/,2/-
fault local 1 free/-,2/-
fault local 1 free/0/-
fault local 1 free/02/-
fault local 1 free/65536/-
fault local 1 free/-/2,1
fault local 1 in/0
LINES

each mutex disturbed <<'LINES'
fault local 1 in/0
fault local 1 in/1
fault local 1 out/0
fault local 1 out/1
LINES

each mutex 'refused BadLocal' <<'LINES'
fault local 1 -
fault local 1 in
fault local 1 in/
fault local 1 in/2
fault local 1 in/00
fault local 1 in/0/
fault local 1 in0
fault local 1 In/0
fault local 1 hold/-/-
LINES

each routes disturbed <<'LINES'
fault local 1 -
fault local 1 1:0:1
fault local 1 1:0:1,3:2:2
fault local 1 9:4294967295:65535
LINES

each routes 'refused BadLocal' <<'LINES'
fault local 1 1
fault local 1 1:0
fault local 1 1:0:
fault local 1 1:0:1,
fault local 1 ,1:0:1
fault local 1 1:0:1:1
fault local 1 1:0:1,1:0:1
fault local 1 3:2:2,1:0:1
fault local 1 0:0:1
fault local 1 1:0:0
fault local 1 65536:0:1
fault local 1 1:0:65536
fault local 1 1:4294967296:1
fault local 1 01:0:1
fault local 1 1:00:1
fault local 1 1:0:1;3:2:2
fault local 1 -,1:0:1
LINES

# ---- a text of 200 bytes and one of 201; a line of 256 bytes and one of 257

ids=$(seq -s , 10001 10032)
answers token "fault local 1 hold/$ids/100\nshow 1" "disturbed\nnode 1 tree 3 2 2 wave normal 0 local hold/$ids/100"
answers token "fault local 1 hold/$ids/1000" 'refused BadLocal'
entries=$(seq -f '%.0f:0:1' -s , 10001 10019),10020
answers routes "fault local 1 $entries:10:1\nshow 1" "disturbed\nnode 1 tree 3 2 2 wave normal 0 local $entries:10:1"
answers routes "fault local 1 $entries:100:1" 'refused BadLocal'
long=$(printf '%0242d' 0)
answers idle "fault local 1 $long" 'refused BadLocal'
answers idle "fault local 1 ${long}0" 'bad line 1'
echo "$passed lines passed, $failed failed"
