# What the tests of the built program share: the program, a folder for files, checks that are counted, and networks. To be
# sourced at the top of the repository, with the name of the program if it is another one.
program=$(realpath -m "${1:-crates/qsr_main/out/qsr_main}")
room=$(mktemp -d)
trap 'rm -rf "$room"' EXIT
passed=0
failed=0
skipped=0

check() {
  if [ "$2" = "$3" ]; then
    passed=$((passed + 1))
  else
    failed=$((failed + 1))
    printf 'FAILED: %s\n  wanted: %s\n  found:  %s\n' "$1" "$2" "$3"
  fi
}

# Runs the program on the words after the third: wants the status, the bytes of the file as its output, and no message.
expect() {
  local name=$1 status=$2 wanted=$3 found
  shift 3
  "$program" "$@" >"$room/output" 2>"$room/messages"
  found=$?
  check "$name: status" "$status" "$found"
  cmp -s "$wanted" "$room/output"
  check "$name: output" 0 $?
  check "$name: messages" "" "$(cat "$room/messages")"
}

# The same, for an output of one line.
expect_line() {
  printf '%s\n' "$3" >"$room/line"
  expect "$1" "$2" "$room/line" "${@:4}"
}

expect_nothing() { expect "$1" "$2" /dev/null "${@:3}"; }

# The same, for what tools/expected_answers.py answers to the words, on the source in the file.
expect_as_computed() {
  local name=$1 source=$2 status
  shift 2
  tools/expected_answers.py "$@" <"$source" >"$room/computed"
  status=$?
  expect "$name" "$status" "$room/computed" "$@" <"$source"
}

# How many threads the program starts on the words, with the file as its source.
threads_started() {
  local source=$1
  shift
  strace -f -qq -e trace=clone,clone3 -o "$room/calls" "$program" "$@" <"$source" >/dev/null
  grep -cE ' clone3?.*= [0-9]+$' "$room/calls"
}

# Whether something tells of threads. Where nothing does the check is skipped.
tells_threads() {
  strace -f -qq -e trace=clone,clone3 -o /dev/null true 2>/dev/null && return
  skipped=$((skipped + 1))
  return 1
}

# Wants so many threads to be started in each round of closing. There is at least one round.
expect_threads() {
  local name=$1 wanted=$2 source=$3 started
  shift 3
  tells_threads || return
  started=$(threads_started "$source" "$@")
  if [ "$wanted" -gt 0 ] && [ "$started" -gt 0 ] && [ $((started % wanted)) -eq 0 ]; then
    started=$wanted
  fi
  check "$name: threads" "$wanted" "$started"
}

# Wants more threads than so many: those of one round of closing, and others that look ahead of a search.
expect_more_threads() {
  local name=$1 least=$2 source=$3 started
  shift 3
  tells_threads || return
  started=$(threads_started "$source" "$@")
  check "$name: more than $least threads, as $started are" 1 $((started > least))
}

# The lines of a text in which | stands for a line end.
lines() { printf '%s\n' "$1" | tr '|' '\n'; }

if ! [ -x "$program" ]; then
  check "the program is built: $program" "built" "missing"
  echo "$passed passed, $failed failed"
  exit 1
fi

# ---- networks

# A network of so many nodes with this relation from each one to the next, and with one of the others beside it from each to
# those after that.
dense_network() {
  awk -v nodes="$1" -v relation="$2" -v others="$3" 'BEGIN {
    count = split(others, other, " ")
    print "nodes " nodes
    for (i = 0; i < nodes; i++)
      for (j = i + 1; j < nodes; j++)
        print i, j, "( " relation (j > i + 1 ? " " other[1 + (3 * i + j) % count] : "") " )"
    print "."
  }'
}

# The network of so many nodes with this relation from each one to all after it.
closed_network() { dense_network "$1" "$2" "" | sed 's/  )/ )/'; }

allen="b m o fi di s eq si d f oi mi bi"
regions="DC EC PO TPP NTPP TPPi NTPPi EQ"
# the generator of `demo`, as a function of awk
draw='
  function draw(below) {
    state = (1664525 * state + 1013904223) % 4294967296
    return int(state / 65536) % below
  }'

# A network of so many nodes, about half of whose pairs have one relation or several, so many at most, which are drawn from
# those that are named.
drawn_network() {
  awk -v state="$1" -v nodes="$2" -v most="$3" -v relations="$4" "$draw"'
    BEGIN {
      count = split(relations, base, " ")
      print "nodes " nodes
      for (i = 0; i < nodes; i++)
        for (j = i + 1; j < nodes; j++)
          if (draw(2)) {
            printf "%d %d (", i, j
            for (k = draw(most); k >= 0; k--) printf " %s", base[1 + draw(count)]
            print " )"
          }
      print "."
    }'
}

# friends and strangers under short names
sed 's/same/id/g; s/friends/a/g; s/strangers/b/g' examples/friends.table >"$room/ramsey.table"
ramsey=$room/ramsey.table

# Tells how many checks there were, and returns whether all passed.
tell_checks() {
  echo "$passed passed, $failed failed, $skipped skipped"
  [ "$failed" -eq 0 ]
}
