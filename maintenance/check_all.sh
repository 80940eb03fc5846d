#!/bin/sh
# check_all.sh: the tests of tools/, maintenance/ and faults/ and the checks of the documents, which prove nothing; `make ci` runs them before the gate.
# All are run, and the status is the greatest of theirs: 1 where one found a fault, 5 where standard output takes no more. It has no words.
cd "$(dirname "$0")/.." || exit 2
[ $# -eq 0 ] || { echo "check_all: it has no words" >&2; exit 2; }
status=0

check() {
  "$@" || { found=$?; echo "check_all: $* ended with status $found" >&2; [ $found -le $status ] || status=$found; }
}

for it in tools maintenance faults; do
  check python3 -m unittest discover -s "$it/tests" -p 'test_*.py'
done
for it in claims definitions library help refusals header; do
  check "maintenance/check_$it.py"
done
exit $status
