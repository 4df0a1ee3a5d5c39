#!/usr/bin/env bash
# Runs the program named on the command line on topology texts and an empty script: what it writes has to
# be what stands beside the text. A text is read by printf's %b, so it may have escapes.
set -u
program=$(realpath "$1")
passed=0
failed=0
room=$(mktemp -d)
trap 'rm -rf "$room"' EXIT
cd "$room" || exit 1
: >script

answers() { # TEXT ANSWER
  printf '%b' "$1" >topology.toml
  : >wanted
  local status wanted=0
  if [ -n "$2" ]; then
    echo "bad topology $2" >wanted
    wanted=2
  fi
  timeout 60 "$program" replay topology.toml script >stdout 2>stderr
  status=$?
  if [ "$status" -eq "$wanted" ] && cmp -s stdout wanted && [ ! -s stderr ]; then
    passed=$((passed + 1))
  else
    failed=$((failed + 1))
    echo "topologies '$1': status $status, wanted $wanted and '$2'"
    head -c 300 stdout stderr
  fi
}

# Each line of standard input is a text.
each() { # ANSWER
  local text
  while IFS= read -r text; do
    answers "$text" "$1"
  done
}

# Each line of standard input has an answer, a bar and the lists of a text for the application idle.
lists() {
  local answer text
  while IFS='|' read -r answer text; do
    answers "$text\napp = \"idle\"\n" "$answer"
  done
}

each '' <<'TEXTS'
nodes = [1, 2, 3]\nlinks = [[1, 2], [2, 3]]\napp = "idle"\n
app = "idle" # the least topology\nlinks = []\nnodes = [65535]\n
nodes = [2, 3, 1]\nlinks = [[3, 2], [1, 2]]\napp = "token"
nodes = [7]\nlinks = []\napp = "mutex"
nodes = [7]\nlinks = []\napp = "routes"
nodes = [7]\nlinks = []\napp = "idle"\nmodulus = 2
nodes = [7]\nlinks = []\napp = "idle"\nmodulus = 3\n
nodes = [7]\nlinks = []\napp = "idle"\nmodulus = 4294967296\n
modulus = 8\nnodes = [1, 2]\nlinks = [[1, 2]]\napp = "token"\n
nodes = [1, 2]\nmodulus = 4294967295\nlinks = [[1, 2]]\napp = "mutex"\n
app = "routes"\nlinks = [[1, 2]]\nmodulus = 0x1_0000_0000\nnodes = [1, 2]\n
app = "idle"\nlinks = [[1, 2]]\nnodes = [1, 2]\n"modulus" = +2\n
nodes = [1, 2, 4]\nlinks = [[1, 2]]\napp = "token"\n
app = "routes"\nlinks = []\nnodes = [1, 2, 4]\n
TEXTS

each NotToml <<'TEXTS'
nodes = [1\nlinks = []\napp = "idle"
nodes = [1]\nnodes = [1]\nlinks = []\napp = "idle"
nodes = [9223372036854775808]\nlinks = []\napp = "idle"
nodes = [1]\nlinks = []\napp = "i\0000dle"
app = "\xff"
nodes = [1]\nlinks = []\napp = "idle"\nmodulus = 8\nmodulus = 8
modulus = 8\nmodulus = 1\nnodes = 1
nodes = [1]\nlinks = []\napp = "idle"\nmodulus = 9223372036854775808
nodes = [1]\nlinks = []\napp = "idle"\nmodulus = 08
nodes = [1]\nlinks = []\napp = "idle"\nmodulus = \n
TEXTS

answers '' MissingKey
each MissingKey <<'TEXTS'
nodes = [1]\napp = "idle"
nodes = [1]\nx = 1\napp = "idle"
modulus = 8
nodes = [1]\nlinks = []\nmodulus = 8
nodes = [1]\napp = "idle"\nmodulus = 1
links = []\napp = "idle"\nmodulus = 8\nx = 1
TEXTS

each UnknownKey <<'TEXTS'
nodes = [1.5]\nlinks = []\napp = "idle"\nx = 1
nodes = [1]\nlinks = []\napp = "idle"\nmodulus = 8\nx = 1
nodes = [1]\nlinks = []\napp = "idle"\nmodulus = 1\nx = 1
nodes = [1]\nlinks = []\napp = "idle"\nModulus = 8
nodes = [1]\nlinks = []\napp = "idle"\nmodulu = 8
nodes = [1]\nlinks = []\napp = "idle"\n[more]\nmodulus = 8
TEXTS

each WrongKind <<'TEXTS'
nodes = 1\nlinks = []\napp = "idle"
nodes = [-1]\nlinks = []\napp = "idle"
nodes = [1.0]\nlinks = []\napp = "idle"
nodes = [4294967296]\nlinks = []\napp = "idle"
nodes = [1]\nlinks = [[1]]\napp = "idle"
nodes = [1]\nlinks = [[1, 2, 3]]\napp = "idle"
nodes = [1]\nlinks = [1, 2]\napp = "idle"
nodes = [1]\nlinks = [[1, 4294967296]]\napp = "idle"
nodes = [1]\nlinks = [[1]]\napp = "idel"
nodes = [1]\nlinks = []\napp = 3
nodes = [1]\nlinks = []\napp = "idle"\nmodulus = 1
nodes = [1]\nlinks = []\napp = "idle"\nmodulus = 0
nodes = [1]\nlinks = []\napp = "idle"\nmodulus = -2
nodes = [1]\nlinks = []\napp = "idle"\nmodulus = 4294967297
nodes = [1]\nlinks = []\napp = "idle"\nmodulus = 9223372036854775807
nodes = [1]\nlinks = []\napp = "idle"\nmodulus = "8"
nodes = [1]\nlinks = []\napp = "idle"\nmodulus = 8.0
nodes = [1]\nlinks = []\napp = "idle"\nmodulus = [8]
nodes = [1]\nlinks = []\napp = "idle"\nmodulus = true
nodes = [1]\nlinks = []\napp = "idle"\n[modulus]
modulus = 1\nnodes = [1]\nlinks = []\napp = "idel"
nodes = []\nlinks = [[0, 0]]\napp = "idle"\nmodulus = 1
TEXTS

each UnknownApp <<'TEXTS'
nodes = [1]\nlinks = []\napp = "Token"
nodes = [1]\nlinks = []\napp = "idel"
nodes = []\nlinks = []\napp = ""
nodes = [1]\nlinks = []\napp = "idel"\nmodulus = 8
TEXTS

lists <<'TEXTS'
NoNodes|nodes = []\nlinks = []
BadId 70000|nodes = [1, 70000]\nlinks = []
BadId 0|nodes = [0]\nlinks = [[0, 0]]
BadId 0|nodes = [1, 1, 0]\nlinks = []
BadId 65536|nodes = [65535, 65536]\nlinks = []
BadId 4294967295|nodes = [4294967295, 0]\nlinks = []
TwiceNode 1|nodes = [1, 1]\nlinks = [[2, 2]]
TwiceNode 2|nodes = [1, 2, 2, 1]\nlinks = []
StrangeNode 3|nodes = [1, 2]\nlinks = [[1, 2], [2, 3]]
StrangeNode 0|nodes = [1, 2]\nlinks = [[1, 0]]
StrangeNode 9|nodes = [1, 2]\nlinks = [[1, 1], [1, 9]]
StrangeNode 65536|nodes = [1, 2]\nlinks = [[65536, 1]]
StrangeNode 4294967295|nodes = [1, 2]\nlinks = [[1, 4294967295]]
SelfLink 2|nodes = [1, 2]\nlinks = [[2, 2]]
TwiceLink 1 2|nodes = [1, 2]\nlinks = [[1, 2], [2, 1]]
TwiceLink 2 3|nodes = [1, 2, 3]\nlinks = [[1, 2], [2, 3], [3, 2], [2, 1]]
|nodes = [3, 2]\nlinks = []
|nodes = [1, 2, 4]\nlinks = [[1, 2]]
|nodes = [65535, 7, 1, 2]\nlinks = [[7, 65535], [2, 1]]\nmodulus = 2
TwiceLink 3 4|nodes = [1, 2, 3, 4]\nlinks = [[1, 2], [3, 4], [4, 3]]
StrangeNode 5|nodes = [1, 2, 3, 4]\nlinks = [[1, 2], [4, 5]]
NoNodes|modulus = 8\nnodes = []\nlinks = []
SelfLink 2|nodes = [1, 2]\nlinks = [[2, 2]]\nmodulus = 2
TEXTS

# Three plain lines are read as they stand; each of these is a byte or two from such a text, and means what TOML says.
each '' <<'TEXTS'
app = "idle"\nlinks = [[1, 2]]\nnodes = [1, 2]\n
links = [[1, 2]]\nnodes = [1, 2]\napp = "idle"\n
nodes = [1, 2]\nlinks = [[1, 2]]\napp = "idle"
nodes = [1, 2]\r\nlinks = [[1, 2]]\r\napp = "idle"\r\n
nodes = [1, 2]\nlinks = [[1, 2]]\napp = "idle"\n\n# the end
nodes = [1, 2] # two\nlinks = [[1, 2]]\napp = "idle"\n
nodes = [1, 2,]\nlinks = [[1, 2],]\napp = "idle"\n
nodes = [1,2]\nlinks = [[1,2]]\napp = "idle"\n
nodes = [1,  2]\nlinks = [[1,\n2]]\napp = "idle"\n
nodes=[1, 2]\n"links" = [[1, 2]]\napp = 'idle'\n
nodes = [+1, 0x2]\nlinks = [[0b1, 2]]\napp = "idle"\n
nodes = [1_0, 2]\nlinks = [[10, 2]]\napp = "idl\\u0065"\n
TEXTS

each NotToml <<'TEXTS'
nodes = [01, 2]\nlinks = [[1, 2]]\napp = "idle"\n
nodes = [1, 2]\nlinks = [[1, 02]]\napp = "idle"\n
nodes = [1 2]\nlinks = [[1, 2]]\napp = "idle"\n
nodes = [1, 2]]\nlinks = [[1, 2]]\napp = "idle"\n
nodes = [1, 2]\nlinks = [[1, 2]]\napp = "idle"\nnodes = [1, 2]\n
nodes = [1, 2]\nlinks = [[1, 2]]\napp = "idle"\n\xff
nodes = [1, 2] links = [[1, 2]]\napp = "idle"\n
TEXTS

each WrongKind <<'TEXTS'
nodes = [1, 2, 4294967296]\nlinks = [[1, 2]]\napp = "idle"\n
nodes = [1, 2]\nlinks = [[1, 2], [1, 42949672950]]\napp = "idle"\n
nodes = [1, -2]\nlinks = [[1, 2]]\napp = "idle"\n
nodes = [1, 2]\nlinks = [[1, 2], [1, 2, 3]]\napp = "idle"\n
nodes = [1, [2]]\nlinks = [[1, 2]]\napp = "idle"\n
app = "idle"\nlinks = [[1, 2], []]\nnodes = [1, 2]\n
TEXTS

answers 'nodes = [1, 2]\nlinks = [[1, 2]]\napp = "idle"\nx = 1\n' UnknownKey
answers 'nodes = [1, 2]\nlinks = [[1, 2]]\napp = "idle"\nmodulus = 8\n' ''
answers 'app = "idle"\nlinks = [[1, 2]]\nnodes = [1, 2]\nmodulus = 1\n' WrongKind
answers 'nodes = [1, 2]\nlinks = [[1, 2]]\napp = "idl"e"\n' NotToml
answers 'nodes = [1, 2]\nlinks = [[1, 2]]\napp = "idl\"e"\n' UnknownApp
answers 'nodes = [1, 2]\nlinks = [[1, 2]]\napp = "idel"\n' UnknownApp
answers 'nodes = [1, 2]\nlinks = [[1, 2]]\n' MissingKey
answers 'nodes = [1, 4294967295]\nlinks = [[1, 2]]\napp = "idle"\n' 'BadId 4294967295'

# 1,024 nodes are taken, and 1,025 are not; 8,193 links are too many before they are looked at.
numbers() { # LAST
  seq -s ', ' "$1"
}
answers "nodes = [$(numbers 1024)]\nlinks = []\napp = \"idle\"" ''
answers "nodes = [$(numbers 1025)]\nlinks = []\napp = \"idle\"" TooManyNodes
answers "nodes = [1]\nlinks = [$(yes '[1, 1]' | head -n 8193 | paste -sd ,)]\napp = \"idle\"" TooManyLinks
answers "nodes = [1]\nlinks = [$(yes '[1, 1]' | head -n 8192 | paste -sd ,)]\napp = \"idle\"" 'SelfLink 1'
echo "$passed topologies passed, $failed failed"
