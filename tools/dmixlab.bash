# Completion of dmixlab's words for bash: `source tools/dmixlab.bash`.

# the devices that a configuration names as pcm.NAME at the beginning of a line
_dmixlab_devices() {
  sed -n 's/^[[:space:]]*pcm\.!\{0,1\}\([^][:space:].{}=";,[]\{1,\}\).*/\1/p' "$1" 2>/dev/null | sort -u
}

# where OUT.wav can go, whose ending isn't written: folders, and the WAV files that are there
_dmixlab_outputs() {
  compgen -d -- "$1"
  compgen -f -X '!*.wav' -- "$1" | sed 's/\.wav$//'
}

_dmixlab() {
  local word=${COMP_WORDS[COMP_CWORD]}
  COMPREPLY=()
  case $COMP_CWORD:${COMP_WORDS[1]} in
    1:*) mapfile -t COMPREPLY < <(compgen -W "run check refine conf make --help --version" -- "$word") ;;
    2:run | 2:check | 3:check | 2:refine | 2:conf)
      compopt -o filenames
      mapfile -t COMPREPLY < <(compgen -f -- "$word")
      ;;
    3:run | 4:check)
      compopt -o filenames
      mapfile -t COMPREPLY < <(_dmixlab_outputs "$word")
      ;;
    3:conf) mapfile -t COMPREPLY < <(compgen -W "$(_dmixlab_devices "${COMP_WORDS[2]}")" -- "$word") ;;
  esac
}
complete -F _dmixlab dmixlab ./dmixlab
