#!/bin/sh
# check_c.sh: builds the programs of c/ over the static library, and runs those that test it; `make check-c` builds the library and calls it.
#
#     --seconds N     also tries clients that write at the same time, clients that come and go, and readers, for so long
#     --contend N     also has 16 clients write at the same time for so long, and compares each sample
#     --backend rattle  the library is built by Rattle's own compiler, and what is built over it is in build/c-rattle
#
# CC and CXX are the compilers (cc and c++). The player is built where alsa-lib's headers are, valgrind is used where it is, and the crates
# for cargo are tested where cargo is; what is left out is said.
set -e
cd "$(dirname "$0")/.."
seconds=0 contend=0 backend=llvm
while [ $# -gt 1 ]; do
  case $1 in
    --seconds) seconds=$2 ;;
    --contend) contend=$2 ;;
    --backend) backend=$2 ;;
    *) break ;;
  esac
  shift 2
done
[ $# -eq 0 ] || { echo "check_c: the words are --seconds N, --contend N and --backend NAME" >&2; exit 2; }
archive=build/libdmix_c.a built=build/c
if [ "$backend" != llvm ]; then
  archive=crates/dmix_c/out/libdmix_c.a built=build/c-$backend
  (cd crates/dmix_c && rt lib --backend "$backend")
elif [ ! -f "$archive" ]; then
  echo "check_c: there is no $archive yet; make library builds it" >&2
  exit 2
fi
warnings="-Wall -Wextra -Werror -Iinclude"
cc="${CC:-cc} -std=gnu11 -O2 $warnings -pthread"
mkdir -p "$built"

# Runs a command again and again, for so many seconds.
for_seconds() {
  end=$(($(date +%s) + $1))
  shift
  while [ "$(date +%s)" -lt "$end" ]; do
    "$@"
  done
}

compare_header() {
  maintenance/check_header.py --archive "$archive"
  maintenance/check_header.py --layout >"$built/layout.c"
  ${CC:-cc} -std=c11 $warnings -fsyntax-only "$built/layout.c"
  ${CXX:-c++} -std=c++17 -xc++ $warnings -fsyntax-only "$built/layout.c"
}

# What is installed: one archive, and one shared library.
build_libraries() {
  ${CC:-cc} -std=c11 -O2 $warnings -fPIC -c c/heap.c -o "$built/heap.o"
  cp "$archive" "$built/libdmixlab.a" && chmod u+w "$built/libdmixlab.a"
  ${AR:-ar} r "$built/libdmixlab.a" "$built/heap.o"
  ${CC:-cc} -shared -Wl,-soname,libdmixlab.so.0 -Wl,--whole-archive "$built/libdmixlab.a" -Wl,--no-whole-archive -o "$built/libdmixlab.so.0"
  ln -sf libdmixlab.so.0 "$built/libdmixlab.so"
}

build_programs() {
  for it in refusals memory contend churn capture echo; do
    $cc "c/$it.c" "$built/libdmixlab.a" -o "$built/$it"
  done
  $cc c/contend.c -L"$built" -Wl,-rpath,"$PWD/$built" -ldmixlab -o "$built/contend-shared"
  ${CXX:-c++} -std=c++17 -O2 $warnings -pthread -xc++ c/refusals.c -xnone "$built/libdmixlab.a" -o "$built/refusals-c++"
}

run_tests() {
  "$built/refusals"
  "$built/refusals-c++"
  "$built/memory"
  "$built/contend" 4 200000 2
  "$built/contend" 1 100000 1
  "$built/contend" 8 100000 2 loud
  "$built/contend" 16 50000 8
  "$built/contend-shared" 4 100000 2
  "$built/churn" 400
  "$built/capture" 4 200000 2
  "$built/capture" 16 50000 8
  "$built/capture" 4 200000 2 hurry
}

try_threads() {
  "$built/contend" 16 500000 2 loud
  "$built/churn" 400
  "$built/capture" 16 100000 2 hurry
}

# A leak is an error too, but for the words of rings.
run_under_valgrind() {
  valgrind="valgrind --quiet --error-exitcode=1 --leak-check=full --errors-for-leak-kinds=definite,indirect"
  valgrind="$valgrind --suppressions=c/words.supp"
  $valgrind "$built/refusals"
  $valgrind "$built/memory"
  $valgrind "$built/contend" 2 2000 2
  $valgrind "$built/churn" 10
  $valgrind "$built/capture" 2 2000 2
}

# An echo that the machine was too slow for has other gaps.
hear_echo() {
  "$built/echo" demo/high.wav "$built/echo.wav" >"$built/echo.txt"
  cat "$built/echo.txt"
  if grep -q ' 0 overruns, 0 underruns' "$built/echo.txt"; then
    maintenance/check_heard.py "$built/echo.wav" demo/high.wav/2
  fi
}

hear_player() {
  $cc c/player.c "$built/libdmixlab.a" -lasound -o "$built/player"
  "$built/player" -D "file:$built/player.wav,wav" -s 1 demo/high.wav demo/low.wav demo/question.wav >"$built/player.txt"
  cat "$built/player.txt"
  if [ "$(grep -c ' 0 underruns$' "$built/player.txt")" -eq 3 ]; then
    maintenance/check_heard.py "$built/player.wav" demo/high.wav demo/low.wav demo/question.wav
  fi
}

has_alsa() {
  printf '#include <alsa/asoundlib.h>\nint main(void) { return 0; }\n' | ${CC:-cc} -xc - -lasound -o "$built/has-alsa" 2>/dev/null
}

compare_header
build_libraries
build_programs
run_tests
for_seconds "$seconds" try_threads
for_seconds "$contend" "$built/contend" 16 500000 2 loud
hear_echo

if command -v valgrind >/dev/null; then
  run_under_valgrind
else
  echo "check_c: valgrind isn't here, so nothing ran under it"
fi

if command -v cargo >/dev/null; then
  DMIXLAB_LIB_DIR=$PWD/$built cargo test --offline --quiet --manifest-path rust/Cargo.toml --target-dir "$built/cargo"
else
  echo "check_c: cargo isn't here, so the crates of rust/ aren't tested"
fi

if has_alsa; then
  hear_player
else
  echo "check_c: alsa-lib's headers aren't here, so the player isn't built"
fi
