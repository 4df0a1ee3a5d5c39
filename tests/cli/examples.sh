#!/usr/bin/env bash
# Runs the program named on the command line on each folder of examples/ and of tests/cases: its standard output and
# its status have to be those of the folder, byte for byte. A folder is run as one joined text on
# standard input (its topology.toml, a line `---` and its script), as the words
# `replay topology.toml script`, and as `check topology.toml script`, which writes behind a good run the
# faults of the network that it leaves: the lines of the folder's file `checked`, or where it has none that
# there are no faults. Where there are some that run's status is 1. A folder with a file `joined` is run on
# that alone, one with a file `explored` as `explore topology.toml script` too, and one with a file `history` as
# `verify topology.toml history` alone.
set -u
program=$(realpath "$1")
cd "$(dirname "$0")/../.."
passed=0
failed=0
room=$(mktemp -d)
trap 'rm -rf "$room"' EXIT

# Runs the program with these words, and compares with the file and with the status that is wanted.
compare() { # FOLDER STDOUT STATUS WORD..
  local folder=$1 stdout=$2 wanted=$3
  shift 3
  timeout 60 "$program" "$@" >"$room/stdout" 2>"$room/stderr"
  local status=$?
  if [ "$status" -eq "$wanted" ] && cmp -s "$room/stdout" "$stdout" && [ ! -s "$room/stderr" ]; then
    passed=$((passed + 1))
  else
    failed=$((failed + 1))
    echo "example $folder ${1:-joined}: status $status, wanted $wanted"
    diff "$stdout" "$room/stdout" | head -n 5
    head -n 3 "$room/stderr"
  fi
}

for folder in examples/*/*/ tests/cases/*/; do
  folder=${folder%/}
  stdout=$folder/stdout
  status=$(cat "$folder/status")
  if [ -f "$folder/joined" ]; then
    compare "$folder" "$stdout" "$status" <"$folder/joined"
  elif [ -f "$folder/history" ]; then
    compare "$folder" "$stdout" "$status" verify "$folder/topology.toml" "$folder/history" <&-
  else
    { cat "$folder/topology.toml"; echo ---; cat "$folder/script"; } >"$room/joined"
    compare "$folder" "$stdout" "$status" <"$room/joined"
    compare "$folder" "$stdout" "$status" replay "$folder/topology.toml" "$folder/script" <&-
    cp "$stdout" "$room/checked"
    if [ "$status" -eq 0 ]; then
      if [ -f "$folder/checked" ]; then cat "$folder/checked"; else echo 'faults 0'; fi >>"$room/checked"
      [ "$(tail -n 1 "$room/checked")" = 'faults 0' ] || status=1
    fi
    compare "$folder" "$room/checked" "$status" check "$folder/topology.toml" "$folder/script" <&-
    if [ -f "$folder/explored" ]; then
      compare "$folder" "$folder/explored" 0 explore "$folder/topology.toml" "$folder/script" <&-
    fi
  fi
done
echo "$passed examples passed, $failed failed"
