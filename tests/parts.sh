# Makes parts, and counts what their last lines tell; `gate` and `tests/run` take it up.
# The parts of the tests, those first that find a fault the soonest. `+` joins those that are made at once, since they
# mostly wait, and measure no time that is not many times as long as they need:
PARTS="transcripts process documents building clients serving racks connections+crowds ends hostile growths"
# What tells of a failure, in the lines that a part prints.
TELLING='^rt: FAILED|NOT (PROVED|TRIED|REFUSED)|: BAD EDIT|: (Failure|[A-Za-z]*Error|TimeoutExpired): |^wrong/test: '
passed=0
failed=0
lines=()
faults=()
declare -A running
logs=$(mktemp -d)
trap 'for each in "${running[@]}"; do kill -INT -- "-$each" 2>/dev/null; done; rm -rf "$logs"' EXIT

# count NAME SECONDS: counts what a part told; one that does not tell how many passed and failed has failed.
count() {
  local counts line before=$failed
  counts=$(tail -n 1 "$logs/$1")
  if [[ $counts =~ ^([0-9]+)\ passed,\ ([0-9]+)\ failed$ ]]; then
    passed=$((passed + BASH_REMATCH[1]))
    failed=$((failed + BASH_REMATCH[2]))
  else
    failed=$((failed + 1))
    counts="did not reach its end"
  fi
  if [ "$failed" -gt "$before" ]; then
    mapfile -t -O ${#faults[@]} faults < <(grep -aE "$TELLING" "$logs/$1" | cut -c 1-400 | tail -n 12)
  fi
  line=$(printf '== %-28s %6d s  %s' "$1" "$2" "$counts")
  lines+=("$line")
  echo "$line"
}

# part NAME COMMAND ..: makes a part.
part() {
  local name=$1 began=$SECONDS
  shift
  echo "== $name"
  "$@" 2>&1 | tee "$logs/$name"
  count "$name" $((SECONDS - began))
}

# start NAME COMMAND ..: begins a part that is made beside others, in a process group of its own, which ends with this.
start() {
  local name=$1 began=$SECONDS
  shift
  set -m
  ("$@" > "$logs/$name" 2>&1; echo $((SECONDS - began)) > "$logs/$name.seconds") &
  set +m
  running[$name]=$!
}

# collect NAME: waits for the end of a part that was begun, and prints what it told.
collect() {
  wait "${running[$1]}"
  unset "running[$1]"
  echo "== $1"
  cat "$logs/$1"
  count "$1" "$(cat "$logs/$1.seconds")"
}

# parts FOLDER PROGRAM NAME[+NAME ..]: makes a part of the tests in this folder, or some at once, whose outputs are
# printed one after another.
parts() {
  local folder=$1 program=$2 names name
  IFS=+ read -ra names <<< "$3"
  if [ ${#names[@]} = 1 ]; then
    part "$3" "$folder/$3/run" "$program"
    return
  fi
  for name in "${names[@]}"; do start "$name" "$folder/$name/run" "$program"; done
  for name in "${names[@]}"; do collect "$name"; done
}

# total: prints again the line of each part and the lines that tell what failed, and `N passed, M failed` of all.
total() {
  printf '%s\n' "${lines[@]}" "${faults[@]}" "$passed passed, $failed failed"
  [ "$failed" = 0 ]
}
