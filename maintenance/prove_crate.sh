#!/bin/sh
# prove_crate.sh NAME MARK WORK WORD..: proves a crate by the words, in its folder, and makes its mark; the rules of build/rules.mk call it.
# make begins all that is ready, and here each waits for its turn: LANES proofs run at once, and the next one is that of the most WORK, which
# is the work of the longest chain of crates from this one up to the program.
# A proof takes an even share of the lanes that no other one has among those that wait, and two processes at least on the longest chain, as
# others wait for it. Where less work waits for it than for another one, it gives way.
# The mark is as old as the proof's begin, so that what was changed meanwhile is newer. TOTAL is how many crates are to be proved.
# The status is 1 where the crate isn't proved, or isn't begun since another one isn't proved; 2 without these words, and 5 where standard
# output takes no more.
[ $# -ge 4 ] || { echo "prove_crate: the words are NAME MARK WORK WORD.." >&2; exit 2; }
name=$1 mark=$2 work=$3 turn=$(printf %012d "$3")-$1 log=build/logs/$1.log
waiting=build/waiting/$turn running=build/running/$turn
shift 3

# how many of these files there are, and the greatest work of their names
count() {
  number=0 most=0
  for it; do
    [ -e "$it" ] || continue
    number=$((number + 1)) it=${it##*/} it=${it%%-*}
    it=${it#"${it%%[!0]*}"}
    [ "${it:-0}" -le "$most" ] || most=$it
  done
}

# whether it's this crate's turn: a lane is free, and no crate of more work waits
is_next() {
  for next in build/waiting/*; do :; done
  count build/running/*
  [ "$next" = "$waiting" ] && [ "$number" -lt "${LANES:-1}" ]
}

# ends where a crate wasn't proved, unless the others are to go on by `make -k`
end_if_refused() {
  [ -e build/refused ] || return 0
  case ${MAKEFLAGS%% *} in
    -*) ;;
    *k*) return ;;
  esac
  rm -f "$waiting"
  exit 1
}

# takes the turn, which no other crate does meanwhile
take_turn() (
  flock 8
  is_next && mkdir "$running" && rm "$waiting"
) 8>build/turn

mkdir -p build/waiting build/running
: >"$waiting"
trap 'rm -f "$waiting"; exit 143' TERM INT HUP
end_if_refused
# meanwhile make begins what is ready since a lane is free, which may be of more work
until is_next && sleep 0.1 && is_next && take_turn; do
  # what is next looks often
  if [ "$next" = "$waiting" ]; then sleep 0.1; else sleep 0.8; fi
  end_if_refused
done

number=1
until mkdir "build/count/$number" 2>/dev/null; do
  # without the folder each would fail
  [ -d "build/count/$number" ] || mkdir -p build/count
  number=$((number + 1))
done
(trap "" PIPE && echo "[$number/${TOTAL:-?}] proving $name") 2>/dev/null || { rm -rf "$running"; echo "prove_crate: can't write standard output" >&2; exit 5; }

rm -rf "$mark" "${mark%.proved}.rlib"
touch "$mark.begun"
count build/running/*
others=$((number - 1))
count build/waiting/*
jobs=$(((${LANES:-1} - others) / (number + 1)))
[ "$jobs" -ge 1 ] || jobs=1
count build/running/* build/waiting/*
# of the longest chain is what has 95 of 100 parts of its work
[ "$jobs" -ge 2 ] || [ "${LANES:-1}" -eq 1 ] || [ $((20 * work)) -lt $((19 * most)) ] || jobs=2
niceness=$((20 * (most - work) / most))
[ "$niceness" -le 19 ] || niceness=19
(cd "crates/$name" && exec nice -n "$niceness" "$@" --jobs "$jobs") >"$log" 2>&1 </dev/null &
proof=$!
trap 'kill $proof; wait $proof; rm -rf "$mark.begun" "$running"; exit 143' TERM INT HUP
wait $proof
status=$?
if [ $status -eq 0 ]; then
  rm -rf "$running"
  mv "$mark.begun" "$mark"
  exit
fi
rm -f "$mark.begun"
end=$(grep -v -E '^(fn [^ ]+: proved$|statements [^ ]+: |logic /|logic=not-proved)' "$log" | tail -n 12)
printf '%s\n' "dmixlab: $name isn't proved. All that was said of it is in $PWD/$log, which has" "$end" >&2
# before its turn ends, so that no other one is begun
: >build/refused
rm -rf "$running"
exit 1
