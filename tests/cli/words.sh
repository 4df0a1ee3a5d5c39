#!/usr/bin/env bash
# Runs the program named on the command line with words, good and bad, and on files of all kinds.
set -u
program=$(realpath "$1")
examples=$(realpath "$(dirname "$0")/../../examples")
help=$(realpath "$(dirname "$0")/help")
formats=$(realpath "$(dirname "$0")/../../docs/formats.md")
explained=$(realpath "$(dirname "$0")/explained.txt")
example=$examples/first/one-wave
verified=$examples/history/verified-wave
limit=1048576
passed=0
failed=0
room=$(mktemp -d)
trap 'rm -rf "$room"' EXIT
cd "$room"
# the help tells the name that the program is called by
mkdir bin
ln -s "$program" bin/reset-service
program=$room/bin/reset-service

run() { # WORD..
  timeout 60 "$program" "$@" >stdout 2>stderr
  status=$?
}

# Counts the last run: it passes where it ended with this status and the test succeeds.
judge() { # TITLE STATUS TEST..
  local title=$1 wanted=$2
  shift 2
  if [ "$status" -eq "$wanted" ] && "$@"; then
    passed=$((passed + 1))
  else
    failed=$((failed + 1))
    echo "words $title: status $status, wanted $wanted"
    head -c 300 stdout stderr
  fi
}

wrote() { # STDOUT STDERR
  printf '%s' "$1" | cmp -s - stdout && printf '%s' "$2" | cmp -s - stderr
}

# Standard output is this file, byte for byte, and standard error has nothing.
printed() { # FILE
  cmp -s "$1" stdout && [ ! -s stderr ]
}

complained() {
  [ ! -s stdout ] && [ -s stderr ]
}

on_files() { # SUBCOMMAND TITLE STATUS STDOUT STDERR TOPOLOGY INPUT
  run "$1" "$6" "$7" <&-
  judge "$1, $2" "$3" wrote "$4" "$5"
}

replays() { # TITLE STATUS STDOUT STDERR TOPOLOGY SCRIPT
  on_files replay "$@"
}

checks() { # TITLE STATUS STDOUT STDERR TOPOLOGY SCRIPT
  on_files check "$@"
}

verifies() { # TITLE STATUS STDOUT STDERR TOPOLOGY HISTORY
  on_files verify "$@"
}

# Each subcommand tells that a file can't be read.
read_fault() { # TITLE TOPOLOGY INPUT
  replays "$1" 3 '' $'read fault\n' "$2" "$3"
  checks "$1" 3 '' $'read fault\n' "$2" "$3"
  verifies "$1" 3 '' $'read fault\n' "$2" "$3"
}

bad_words() { # WORD..
  run "$@" <&-
  judge "$*" 2 complained
}

helps() { # FILE WORD..
  local file=$help/$1
  shift
  run "$@" <&-
  judge "$*" 0 printed "$file"
}

# `#` and line feeds, in lines of a hundred bytes, so that they do nothing in either text.
comments() { # BYTES
  yes "$(printf '#%.0s' {1..99})" | head -c "$1"
}

# ---- words

bad_words something
bad_words --something
bad_words checks a b
bad_words verify a
bad_words verify a b c
bad_words verify --something a b
bad_words verify --why a
bad_words verify --why=1 a b
bad_words verify --why --why a b
bad_words verify --at a b
bad_words verify a b --at
bad_words verify a b --at x
bad_words verify a b --at -1
bad_words verify a b --at 1000001
bad_words verify a b --at 1 --at 2
bad_words threads
bad_words threads a
bad_words threads a b
bad_words threads a --turns 1
bad_words threads a --history b
bad_words threads --turns 1 --history b
bad_words threads a c --turns 1 --history b
bad_words threads a --turns 0 --history b
bad_words threads a --turns 100001 --history b
bad_words threads a --turns x --history b
bad_words threads a --turns '' --history b
bad_words threads a --turns -1 --history b
bad_words threads a --turns=-1 --history b
bad_words threads a --history b --turns
bad_words threads a --turns 1 --history
bad_words threads a --turns 1 --turns 2 --history b
bad_words threads a --turns 1 --history b --history c
bad_words threads a --turns 1 --history b --something
bad_words threads a --turns 1 --until quiet --history b
bad_words threads a --until busy --history b
bad_words threads a --until '' --history b
bad_words threads a --until --history b
bad_words threads a --until quiet --until quiet --history b
for number in 0 -1 x '' 65536; do
  bad_words threads a --turns 1 --select "$number" --history b
done
for number in 0 -1 x '' 100001; do
  bad_words threads a --turns 1 --resets "$number" --history b
done
bad_words check a b --whole=1
bad_words check a b --whole --whole
bad_words check a --whole
bad_words replay
bad_words replay a
bad_words replay a b c
bad_words replay --something a b
bad_words replay --number a
bad_words replay --number=3 a b
bad_words replay --strict --strict a b
bad_words check --number a b
bad_words record --strict a b --history c
bad_words check
bad_words check a
bad_words check a b c
bad_words check --something a b
bad_words plan
bad_words plan a b c
bad_words plan --something a
bad_words plan a --script b
bad_words plan a --from
bad_words plan a --from b --from c
bad_words replay a b --from
bad_words check a b --from c --from d
bad_words record a b --history c --from
bad_words record a b --history c --from d --from e
bad_words threads a --turns 1 --history b --from
bad_words threads a --turns 1 --history b --from c --from d
bad_words drive a --steps 1 --seed 1 --history b --from
bad_words drive a --steps 1 --seed 1 --history b --from c --from d
bad_words explore
bad_words explore a b c
bad_words explore a --from
bad_words explore a --acts --acts
bad_words explore a --acts=true
bad_words explore a --most
bad_words explore a --most 0
bad_words explore a --most 100000001
bad_words explore a --most -1
bad_words explore a --most x
bad_words explore a --most 1 --most 1
bad_words explore a --until
bad_words explore a --until check --until invariant
bad_words explore a --history
bad_words explore a --history b --history c
bad_words session
bad_words session a b
bad_words session a --from
bad_words session a --from b --from c
bad_words session a --history
bad_words session a --history b --history c
bad_words session a --no-sync --no-sync
bad_words session a --no-sync=true
bad_words session a --no-sync=false
bad_words session a --no-sync false
bad_words session a --sync
bad_words session --history b --no-sync
bad_words session a --no-sync
bad_words session a --from b --no-sync
bad_words page
bad_words page a
bad_words page a b c
bad_words page a b --from
bad_words page a b --from c --from d
bad_words page a b --title
bad_words page a b --title c --title d
bad_words page a b --something
bad_words tables a
bad_words help something
bad_words picture a
bad_words picture a b c
bad_words record
bad_words record a
bad_words record a b
bad_words record a --history c
bad_words record a b --history
bad_words record a b c --history d
bad_words record a b --history c --history d
bad_words record a b --history c --turns 1
bad_words drive a --steps 1 --seed 1
bad_words drive a --steps 1 --history b
bad_words drive a --seed 1 --history b
bad_words drive --steps 1 --seed 1 --history b
bad_words drive a --steps 0 --seed 1 --history b
bad_words drive a --steps 1000001 --seed 1 --history b
bad_words drive a --steps 1 --seed 4294967296 --history b
bad_words drive a --steps 1 --seed -1 --history b
bad_words drive a --steps 1 --seed 1 --history b --faults 1001
bad_words drive a --steps 1 --seed 1 --history b --faults x
bad_words topology
bad_words topology ring
bad_words topology ring 0
bad_words topology ring 1025
bad_words topology ring x
bad_words topology ring 3 4
bad_words topology ring 3 --seed 4294967296
bad_words topology ring 3 --app
bad_words explain a b
# A number keeps its blanks, and isn't cut to 32 or 64 bits.
for number in ' 1' '1 ' $'1\n' 4294967297 18446744073709551617 1.0 1e0 0x1 1_000; do
  bad_words threads a --turns "$number" --history b
  bad_words drive a --steps "$number" --seed 1 --history b
  bad_words drive a --steps 1 --seed "$number" --history b
  bad_words drive a --steps 1 --seed 1 --history b --faults "$number"
  bad_words topology ring "$number"
  bad_words topology ring 3 --seed "$number"
done
for words in ' ring' 'ring ' Ring ''; do
  run topology "$words" 3 <&-
  judge "topology '$words'" 2 wrote $'bad topology UnknownShape\n' ''
done
for words in ' idle' 'idle ' Idle ''; do
  run topology ring 3 --app "$words" <&-
  judge "topology, app '$words'" 2 wrote $'bad topology UnknownApp\n' ''
done
run $'\xff' <&-
judge 'a word of a byte that no text has' 2 wrote '' 'error: a word of the command line is not UTF-8

Usage: reset-service [COMMAND]

For more information, try '"'--help'"'.
'

run session topology.toml --no-sync <&-
judge 'session, a flag without its option' 2 wrote '' "error: the argument '--no-sync' cannot be used without '--history <FILE>'

Usage: reset-service session [OPTIONS] <TOPOLOGY>

For more information, try '--help'.
"

# The help texts, and the errors above, were kept as the program printed them and read beside docs/formats.md:
# they show that a text has changed, and not that it is right.
helps program.txt --help
helps program.txt help
helps program-summary.txt -h
helps replay.txt replay --help
helps replay.txt help replay
helps replay-summary.txt replay -h
helps check.txt check --help
helps check.txt help check
helps check-summary.txt check -h
helps plan.txt plan --help
helps plan.txt help plan
helps plan-summary.txt plan -h
helps explore.txt explore --help
helps explore.txt help explore
helps explore-summary.txt explore -h
helps session.txt session --help
helps session.txt help session
helps session-summary.txt session -h
helps verify.txt verify --help
helps verify.txt help verify
helps verify-summary.txt verify -h
helps threads.txt threads --help
helps threads.txt help threads
helps threads-summary.txt threads -h
helps picture.txt picture --help
helps picture.txt help picture
helps picture-summary.txt picture -h
helps page.txt page --help
helps page.txt help page
helps page-summary.txt page -h
helps record.txt record --help
helps record.txt help record
helps record-summary.txt record -h
helps drive.txt drive --help
helps drive.txt help drive
helps drive-summary.txt drive -h
helps topology.txt topology --help
helps topology.txt help topology
helps topology-summary.txt topology -h
helps explain.txt explain --help
helps explain.txt help explain
helps explain-summary.txt explain -h
helps tables.txt tables --help
helps tables.txt help tables
helps tables-summary.txt tables -h
run tables <&-
judge tables 0 printed "$examples/tables.txt"
for word in --version -V; do
  run $word <&-
  judge "$word" 0 wrote $'reset-service 0.1.0\n' ''
done

# ---- explanations

# Each name that docs/formats.md has for a refusal or a fault is explained, and each command and answer that it has, by
# what `explained` says that the explanation has to name. No two words have one explanation.
names=$(grep -oh '`[A-Z][A-Za-z]*[a-z][A-Za-z]*' "$formats" | tr -d '`' | sort -u | grep -vxE 'Complete|Lcg')
lowercase='claim follow adopt request relay open join finish mend act fault draw show newest enabled ready check alarm
  watch moves move invariant snapshot plan applied complete refused disturbed drawn quiet unjoined link faults report verified drove
  resumed help explain exit normal initiate reset entry
  tree wave app local bad node session threads idle token mutex routes pass take enter leave pull memory read write thread lists line not
  configurations steps ends whole longest completions endless found repair repairs root father distance K row history more
  holds fails tokens hold free in out token-links mutex-links routes-links opened finished entries reports nowhere table no error
  reset-service script nodes links modulus rows reset-snapshot reset-history
  replay explore verify picture page record drive topology tables'

# Standard output has each phrase of the word, and there is one.
names_all() { # WORD
  local phrase told
  told=$(tr '\n' ' ' <stdout)
  grep -q "^$1 | " "$explained" || return 1
  while IFS= read -r phrase; do
    [[ $told == *"${phrase#"$1 | "}"* ]] || return 1
  done < <(grep "^$1 | " "$explained")
  [ ! -s stderr ]
}

for word in $names BookFull BadRange EndsAfter TooLongForPicture TooManyForPicture UnknownShape $lowercase; do
  run explain "$word" <&-
  judge "explain $word" 0 names_all "$word"
  cp stdout "explained-$word"
done
told=$(md5sum explained-* | cut -d ' ' -f 1)
[ "$(sort -u <<<"$told" | wc -l)" -eq "$(wc -l <<<"$told")" ] && status=0 || status=1
judge 'explanations of their own' 0 true
run explain nonsense <&-
judge 'explain nonsense' 2 wrote $'no such word\n' ''

# `explain` alone lists the same words, each once, and the rows of the tables by their numbers.
lists_all() {
  diff <(grep '^  ' stdout | grep -v ' tree 1 to ' | tr -s ' ' '\n' | sed '/^$/d' | sort) \
    <({ tr -s ' ' '\n' <<<"$names $lowercase"; sed '/^#/d; s/ | .*//' "$explained"; } | sed '/^$/d' | sort -u) >&2 &&
    grep -qxF '  tree 1 to tree 8, wave 1 to wave 11, app 1 to app 3' stdout && [ ! -s stderr ]
}
run explain <&-
judge 'explain alone' 0 lists_all

# A row is explained by its number, its name in the printed tables and, where one belongs to it, its repair.
explains_row() { # FAMILY NUMBER NAME REPAIR
  [[ $(tr '\n' ' ' <stdout) == "Row $2 of the $1 table, \`$3\`: "*"$4"* ]] && [ ! -s stderr ]
}
for family in tree wave; do
  while IFS= read -r row; do
    number=${row%% *} name=${row#* }
    name=${name%% *} repair="It is no fault."
    case $name in
      claim-* | follow-* | mend-*) repair="The repair is \`${name%-*} AT\`." ;;
      adopt-*) repair='The repair is `adopt AT OTHER`.' ;;
    esac
    run explain "$family $number" <&-
    judge "explain '$family $number'" 0 explains_row "$family" "$number" "$name" "$repair"
  done < <(sed -n "/^table $family\$/,/^table /p" "$examples/tables.txt" | grep '^[0-9]')
done
names_rows() { # NUMBER: the names that the row has in the link tables
  local name
  grep -q "^Row $1 of the application's link table" stdout || return 1
  while IFS= read -r name; do
    tr '\n' ' ' <stdout | grep -qF "($name)" || return 1
  done < <(sed -n '/^table .*-links$/,/^table /p' "$examples/tables.txt" | sed -n "s/^$1 \([a-z-]*\) .*/\1/p")
}
for number in 1 2 3; do
  run explain "app $number" <&-
  judge "explain 'app $number'" 0 names_rows "$number"
done
for row in 'tree 0' 'tree 9' 'wave 0' 'wave 12' 'app 0' 'app 4' 'tree  1' 'tree 01' 'local 1'; do
  run explain "$row" <&-
  judge "explain '$row'" 2 wrote $'no such word\n' ''
done
# A network may fall into components, so nothing is refused for it.
for word in Disconnected WouldDisconnect ' NotEnabled' 'NotEnabled ' $'NotEnabled\n' notenabled NotEnable NotEnabledd '' ' '; do
  run explain "$word" <&-
  judge "explain '$word'" 2 wrote $'no such word\n' ''
done

# ---- standard input and output

run <&-
judge 'none, standard input closed' 3 wrote '' $'read fault\n'
run </
judge 'none, standard input a folder' 3 wrote '' $'read fault\n'
run </dev/null
judge 'none, standard input empty' 2 wrote $'bad topology MissingKey\n' ''

files="$example/topology.toml $example/script"
for words in --help "replay $files" "check $files" "plan $files" "verify $example/topology.toml $verified/history"; do
  timeout 60 "$program" $words >/dev/full 2>stderr
  status=$?
  : >stdout
  reason=
  [[ $words == plan* ]] && reason=$'reset-service: standard output: No space left on device\n'
  judge "$words, no room for the output" 3 wrote '' $'write fault\n'"$reason"
done

# ---- files

cp "$example/topology.toml" "$example/script" .
answers=$(cat "$example/stdout")$'\n'
echo 'nodes = [1' >bad
: >empty
mkdir folder
cp topology.toml unreadable
chmod a-r unreadable
ln -s loop loop
comments $((limit - $(wc -c <topology.toml))) | cat topology.toml - >full.toml
comments $((limit - $(wc -c <script))) | cat script - >full
printf '#' | cat full.toml - >over.toml
printf '#' | cat full - >over

# A plan for a script that leaves the line as it was, for the line itself, and what can't be planned for.
whole=$'# 0 repairs\n# 7 steps of a reset\nrequest 3\nopen 3\njoin 2\njoin 1\nfinish 1\nfinish 2\nfinish 3\n'
plans() { # TITLE STATUS STDOUT STDERR WORD..
  run plan "${@:5}" <&-
  judge "plan, $1" "$2" wrote "$3" "$4"
}

plans 'no script' 0 "$whole" '' topology.toml
plans 'a whole reset before' 0 "$whole" '' topology.toml script
plans 'an empty script' 0 "$whole" '' topology.toml empty
plans 'a script at the limit' 0 "$whole" '' topology.toml full
plans 'a script over the limit' 2 $'bad script TooLong\n' \
  $'reset-service: over: it has more than 1048576 bytes\n' topology.toml over
plans 'an endless script' 2 $'bad script TooLong\n' \
  $'reset-service: /dev/zero: it can\'t be read a second time\n' topology.toml /dev/zero
printf 'request 1\nshow\nopen\nopen 3\n' >wrong
plans 'a bad line' 2 $'bad line 3\n' $'reset-service: wrong: line 3: \'open\' takes I\n' topology.toml wrong
printf 'show\nopen' >wrong
plans 'a bad last line' 2 $'bad line 2\n' $'reset-service: wrong: line 2: \'open\' takes I\n' topology.toml wrong
plans 'a bad topology' 2 $'bad topology NotToml\n' \
  $'reset-service: bad: line 2, column 1: missing comma between array elements, expected `,` or `]`\n' bad script
plans 'a topology over the limit' 2 $'bad topology TextTooLong\n' \
  $'reset-service: over.toml: it has more than 1048576 bytes\n' over.toml script
missing=$'reset-service: nothing: No such file or directory\n'
plans 'no topology' 3 '' $'read fault\n'"$missing" nothing script
plans 'a script that is not there' 3 '' $'read fault\n'"$missing" topology.toml nothing
plans 'a script that is not there, after a bad topology' 3 '' $'read fault\n'"$missing" bad nothing

# A snapshot is judged after the topology, and before the script or the history.
printf 'node 1 tree 3 2 2 wave normal 0 local -\nlink 1 2\n' >half
printf 'reset-snapshot 1\nnode 3 tree 3 3 0 wave normal 0 local -\n' >one
starts() { # TITLE STATUS STDOUT STDERR WORD..
  run "${@:5}" <&-
  judge "from a snapshot, $1" "$2" wrote "$3" "$4"
}

starts 'one node of three' 0 $'# 0 repairs\n# 3 steps of a reset\nrequest 3\nopen 3\nfinish 3\n' '' \
  plan topology.toml --from one
starts 'a plan after a script' 0 $'# 0 repairs\n# 2 steps of a reset\nopen 3\nfinish 3\n' '' \
  plan topology.toml <(echo request 3) --from one
starts 'a node that is down' 0 $'refused StrangeNode\napplied\n' '' \
  replay topology.toml <(printf 'request 1\nrequest 3\n') --from one
starts 'check' 0 $'faults 0\n' '' check topology.toml empty --from one
says_why() { # TITLE STATUS STDOUT STDERR REASON WORD..: only `plan` says why without being asked
  local why=$'reset-service: '$5$'\n'
  [ "$6" = plan ] || why=
  starts "$1" "$2" "$3" "$4$why" "${@:6}"
}
for words in 'replay topology.toml script' 'check topology.toml script' 'plan topology.toml' \
  'plan topology.toml script' "verify topology.toml $verified/history" "picture topology.toml $verified/history"; do
  says_why "a link to a node that is down, $words" 2 $'bad snapshot StrangeNode 2\n' '' \
    "half: node 2 isn't in the topology, or is the end of a link and down" $words --from half
  says_why "no snapshot, $words" 2 $'bad snapshot BadLine 1\n' '' 'bad: line 1: no line of a snapshot' $words --from bad
  says_why "a snapshot that is not there, $words" 3 '' $'read fault\n' 'nothing: No such file or directory' \
    $words --from nothing
done
starts 'a bad topology first' 2 $'bad topology NotToml\n' '' replay bad script --from bad
starts 'a bad snapshot before a script that is too long' 2 $'bad snapshot BadLine 1\n' '' \
  replay topology.toml over --from bad

# What a history leaves after so many entries is a snapshot, and `--from` reads it.
line_of_three() { # WAVE OF NODE 1, OF NODE 2, OF NODE 3
  printf '%s\n' 'reset-snapshot 1' "node 1 tree 3 2 2 wave $1 local -" "node 2 tree 3 3 1 wave $2 local -" \
    "node 3 tree 3 3 0 wave $3 local -" 'link 1 2' 'link 2 3'
}
kept=$verified/history # its nine entries are one whole reset
run verify topology.toml "$kept" --at 0 <&-
cp stdout opening
judge 'verify --at 0, the booted configuration' 0 printed <(line_of_three 'normal 0' 'normal 0' 'normal 0')
run verify topology.toml "$kept" --at 5 <&-
judge 'verify --at the first join' 0 printed <(line_of_three 'initiate 0' 'reset 1' 'reset 1')
run verify topology.toml "$kept" --at 9 <&-
judge 'verify --at the last entry' 0 printed <(line_of_three 'normal 1' 'normal 1' 'normal 1')
run verify topology.toml "$kept" --at 10 <&-
judge 'verify --at an entry too far' 2 wrote $'bad history EndsAfter 9\n' ''
run verify topology.toml "$kept" --at 1000000 <&-
judge 'verify --at far too far' 2 wrote $'bad history EndsAfter 9\n' ''
run verify topology.toml "$kept" --from opening <&-
judge 'verify --from what --at 0 leaves' 0 wrote $'report 1 opened 4 finished 9\nverified 9 entries 1 reports\n' ''
run verify topology.toml <(cat "$kept"; printf clam) --at 1 <&-
judge 'verify --at before a bad line' 2 wrote $'bad history BadLine 11\n' ''
printf 'reset-history 3 4294967296\nrequest 3\nopen 1\nopen 3\n' >refused
run verify topology.toml refused --at 1 <&-
judge 'verify --at before a refused entry' 0 printed <(line_of_three 'normal 0' 'normal 0' 'initiate 0')
run verify topology.toml refused --at 3 <&-
judge 'verify --at after a refused entry' 1 wrote $'not enabled at 2\n' ''

# Marked answers.
marks() { # TITLE STATUS STDOUT SCRIPT WORD..
  printf '%b' "$4" >marked
  run replay topology.toml marked "${@:5}" <&-
  judge "replay, $1" "$2" wrote "$3" ''
}

marks 'numbers' 0 $'2: applied\n5: refused NotEnabled\n6: applied\n' '# one\nrequest 3\n\n\nopen 1\nopen 3' --number
marks 'a number before an answer of many lines' 0 \
  "1: $(line_of_three 'normal 0' 'normal 0' 'normal 0' | grep node)"$'\n2: applied\n' 'show\nrequest 3\n' --number
marks 'a bad line' 2 $'1: applied\n2: bad line 2\n' 'request 3\nopen\nopen 3\n' --number
marks 'strict' 1 $'applied\nrefused NotEnabled\n' 'request 3\nopen 1\nopen 3\n' --strict
marks 'strict, the last line' 1 $'applied\nrefused NotEnabled\n' 'request 3\nopen 1' --strict
marks 'strict, nothing refused' 0 $'applied\napplied\n' 'request 3\nopen 3\n' --strict
marks 'strict, a bad line before' 2 $'bad line 1\n' 'open\nopen 1\n' --strict
marks 'both' 1 $'1: applied\n3: refused StrangeNode\n' 'request 3\n\nshow 9\nopen 3\n' --number --strict
marks 'from a snapshot' 0 $'1: applied\n' 'request 3\n' --number --from opening
cp over marked
run replay topology.toml marked --strict <&-
judge 'replay, strict, a script that is too long' 2 wrote $'bad script TooLong\n' ''

# What comes on standard input is cut at the first line that is exactly `---`.
joined() { # TITLE STATUS STDOUT
  run
  judge "none, $1" "$2" wrote "$3" ''
}

joined 'no separator' 0 '' <topology.toml
joined 'separator first' 2 $'bad topology MissingKey\n' < <(printf -- '---\nshow\n')
joined 'two separators' 2 $'bad line 1\n' < <(cat topology.toml; printf -- '---\n---\n')
joined 'separator and a space' 2 $'bad topology NotToml\n' < <(cat topology.toml; printf -- '--- \nshow\n')
joined 'separator without a line feed' 0 '' < <(cat topology.toml; printf -- '---')
joined 'last line without a line feed' 0 $'refused NotEnabled\n' < <(cat topology.toml; printf -- '---\nopen 3')
joined 'endless' 2 $'bad script TooLong\n' </dev/zero

replays 'both good' 0 "$answers" '' topology.toml script
replays 'both at the limit' 0 "$answers" '' full.toml full
cp topology.toml 'topology '
cp script 'script '
replays 'names that end in a blank' 0 "$answers" '' 'topology ' 'script '
read_fault 'name without its blank' topology script
long=$(printf 'x%.0s' {1..255})
for name in ' blank' $'\ttab' $'line\nfeed\n' $'return\r' 'é' '*' '$HOME' '~' "'" '"' - "$long"; do
  cp topology.toml "./$name"
  replays "a topology with the name '${name:0:20}'" 0 "$answers" '' "$name" script
  cp script "./$name"
  replays "a script with the name '${name:0:20}'" 0 "$answers" '' topology.toml "$name"
  rm "./$name"
done
far=$(printf './%.0s' {1..2000})
replays 'long paths' 0 "$answers" '' "${far}topology.toml" "${far}script"
read_fault 'paths that are too long' "$far${far}topology.toml" "$far${far}script"
replays 'topology over the limit' 2 $'bad topology TextTooLong\n' '' over.toml script
replays 'script over the limit' 2 $'bad script TooLong\n' '' topology.toml over
replays 'both over the limit' 2 $'bad topology TextTooLong\n' '' over.toml over
replays 'endless topology' 2 $'bad topology TextTooLong\n' '' /dev/zero script
replays 'endless script' 2 $'bad script TooLong\n' '' topology.toml /dev/zero
replays 'topology bad' 2 $'bad topology NotToml\n' '' bad script
replays 'topology empty' 2 $'bad topology MissingKey\n' '' empty script
replays 'script empty' 0 '' '' topology.toml empty

# A check is written behind a good script alone.
checks 'both good' 0 "$answers"$'faults 0\n' '' topology.toml script
checks 'script over the limit' 2 $'bad script TooLong\n' '' topology.toml over
checks 'topology bad' 2 $'bad topology NotToml\n' '' bad script
checks 'script bad' 2 $'bad line 1\n' '' topology.toml bad
checks 'script empty' 0 $'faults 0\n' '' topology.toml empty

# A history is read as long as it goes on, and the topology is judged first.
cp "$verified/history" .
reports=$(cat "$verified/stdout")$'\n'
verifies 'both good' 0 "$reports" '' topology.toml history
judges_why() { # TITLE STATUS STDOUT HISTORY WORD..
  printf "$4" >given
  run verify topology.toml given "${@:5}" <&-
  judge "why, $1" "$2" wrote "$3" ''
}
judges_why 'a good history' 0 $'verified 1 entries 0 reports\n' 'reset-history 3 4294967296\nrequest 3\n' --why
judges_why 'not enabled' 1 $'not enabled at 2\nentry open 3\nrefused NotEnabled\nrow 3 open: father = id, phase = initiate\nnode 3 tree 3 3 0 wave normal 0 local -\nnode 2 tree 3 3 1 wave initiate 0 local -\n' \
  'reset-history 3 4294967296\nrequest 2\nopen 3\n' --why
judges_why 'no such node' 1 $'not enabled at 1\nentry claim 9\nrefused StrangeNode\n' \
  'reset-history 3 4294967296\nclaim 9\n' --why
judges_why 'a link that is there' 1 $'not enabled at 1\nentry fault up 1 2\nrefused LinkIsThere\nnode 1 tree 3 2 2 wave normal 0 local -\nnode 2 tree 3 3 1 wave normal 0 local -\n' \
  'reset-history 3 4294967296\nfault up 1 2\n' --why
judges_why 'a bad line after it' 2 $'bad history BadLine 3\n' 'reset-history 3 4294967296\nopen 3\nopen\n' --why
judges_why 'not asked' 1 $'not enabled at 1\n' 'reset-history 3 4294967296\nopen 3\n'
verifies 'topology bad' 2 $'bad topology NotToml\n' '' bad history
verifies 'topology bad, history endless' 2 $'bad topology NotToml\n' '' bad /dev/zero
verifies 'history bad' 2 $'bad history BadLine 1\n' '' topology.toml bad
verifies 'history empty' 2 $'bad history BadLine 1\n' '' topology.toml empty
verifies 'history a script' 2 $'bad history BadLine 1\n' '' topology.toml script
verifies 'history endless' 2 $'bad history BadLine 1\n' '' topology.toml /dev/zero
printf 'reset-history 3 4294967296\nfault off 3\nrequest 3\n' >down
verifies 'a node that is down' 1 $'not enabled at 2\n' '' topology.toml down

read_fault 'topology missing' missing script
read_fault 'script or history missing' topology.toml missing
read_fault 'topology bad, script or history missing' bad missing
read_fault 'topology over the limit, script or history missing' over.toml missing
read_fault 'topology without a name' '' script
read_fault 'topology a folder' folder script
read_fault 'script or history a folder' topology.toml folder
read_fault 'topology a link to itself' loop script
if [ ! -r unreadable ]; then
  read_fault 'topology unreadable' unreadable script
  read_fault 'script or history unreadable' topology.toml unreadable
fi
echo "$passed words passed, $failed failed"
