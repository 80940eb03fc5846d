#!/bin/sh
# install.sh DESTDIR PREFIX: installs the built program, its manual page, its completion and its examples; `make install` calls it. Where
# `make check-c` built the library for C, that is installed too: header, archive, shared library, and what pkg-config reads.
# The command is a script that sets what the program is best run with, as ./dmixlab does, and then becomes the program, or on a terminal
# what explains its refusals.
# The status is 2 without two words or a built program, and 5 where standard output takes no more.
set -e
root=$(dirname "$(dirname "$(readlink -f "$0")")")
[ $# -eq 2 ] || { echo "install: the words are DESTDIR and PREFIX, of which the first may be empty" >&2; exit 2; }
[ -x "$root/build/dmixlab" ] || { echo "install: there is no build/dmixlab yet; make builds it" >&2; exit 2; }
to=$1$2

mkdir -p "$to/bin" "$to/libexec/dmixlab" "$to/share/man/man1" "$to/share/bash-completion/completions" "$to/share/doc/dmixlab/demo"
# a program that runs can't be written to, but another one can take its name
cp "$root/build/dmixlab" "$to/libexec/dmixlab/dmixlab.new"
chmod 755 "$to/libexec/dmixlab/dmixlab.new"
mv "$to/libexec/dmixlab/dmixlab.new" "$to/libexec/dmixlab/dmixlab"

explaining="explain.py explanation.py explain_check.py explain_conf.py explain_file.py explain_script.py"
explaining="$explaining refusals.py refusals.tsv script_forms.py show_text.py"
for it in $explaining; do
  cp "$root/tools/$it" "$to/libexec/dmixlab/"
  chmod 644 "$to/libexec/dmixlab/$it"
done

# the tunables have one place, the script ./dmixlab
{
  echo '#!/bin/sh'
  echo '# The C library keeps the stacks of joined threads for those of later phases, and samples are in large pages where the system has them.'
  sed -n 's/^ *\(export GLIBC_TUNABLES=.*\)/\1/p' "$root/dmixlab"
  echo 'at=$(dirname "$(readlink -f "$0")")/../libexec/dmixlab'
  echo 'if [ -t 2 ] && [ "${DMIXLAB_PLAIN-}" != 1 ] && command -v python3 >/dev/null; then'
  echo '  exec python3 "$at/explain.py" "$at/dmixlab" "$@"'
  echo 'fi'
  echo 'exec "$at/dmixlab" "$@"'
} >"$to/bin/dmixlab"
chmod 755 "$to/bin/dmixlab"

cp "$root/docs/dmixlab.1" "$to/share/man/man1/dmixlab.1"
cp "$root/tools/dmixlab.bash" "$to/share/bash-completion/completions/dmixlab"
cp "$root/docs/SCRIPTS.md" "$to/share/doc/dmixlab/"
for it in "$root"/demo/*.script "$root"/demo/*.wav "$root"/demo/asound.conf; do
  cp "$it" "$to/share/doc/dmixlab/demo/"
done
if [ -e "$root/build/c/libdmixlab.so.0" ]; then
  mkdir -p "$to/include" "$to/lib/pkgconfig"
  cp "$root/include/dmixlab.h" "$to/include/"
  cp "$root/build/c/libdmixlab.a" "$to/lib/"
  # a program that runs has the old file, and the next one the new
  cp "$root/build/c/libdmixlab.so.0" "$to/lib/libdmixlab.so.new"
  mv "$to/lib/libdmixlab.so.new" "$to/lib/libdmixlab.so.0"
  ln -sf libdmixlab.so.0 "$to/lib/libdmixlab.so"
  version=$(sed 's/^dmixlab //' "$root/docs/version.txt")
  sed "s|@PREFIX@|$2|; s|@VERSION@|$version|" "$root/c/dmixlab.pc.in" >"$to/lib/pkgconfig/dmixlab.pc"
  chmod 644 "$to/include/dmixlab.h" "$to/lib/libdmixlab.a" "$to/lib/libdmixlab.so.0" "$to/lib/pkgconfig/dmixlab.pc"
fi
cd "$to" && chmod 644 share/man/man1/dmixlab.1 share/bash-completion/completions/dmixlab share/doc/dmixlab/SCRIPTS.md \
  share/doc/dmixlab/demo/*
trap "" PIPE
echo "installed $to/bin/dmixlab; its manual is \`man dmixlab\`, and its examples are in $to/share/doc/dmixlab" 2>/dev/null ||
  { echo "install: can't write standard output" >&2; exit 5; }
