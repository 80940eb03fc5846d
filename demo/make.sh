#!/bin/sh
# Makes the WAV files of this folder (Debian's packages espeak-ng and sox). Those of a lower rate than the card's are converted
# by the program, as their clients' lines say with `plug linear`.
set -e
cd "$(dirname "$0")"
work=$(mktemp -d)
trap 'rm -r "$work"' EXIT
sound="-r 8000 -c 1 -b 16"

# speak FILE RATE LEVEL VOICE SPEED TEXT: a spoken text, without the silence around it
speak() {
  espeak-ng -v "$4" -s "$5" -w "$work/spoken.wav" "$6"
  sox -D "$work/spoken.wav" -r "$2" -c 1 -b 16 "$1" silence 1 0.01 0.5% reverse silence 1 0.01 0.5% reverse norm "$3"
}

# tune FILE SECONDS NOTES..: plucked notes of so many seconds, one after the other
tune() {
  file=$1 length=$2
  shift 2
  count=100
  for note; do
    count=$((count + 1))
    sox -R -n -r 16000 -c 1 -b 16 "$work/note$count.wav" synth "$length" pluck "$note" fade l 0.001 "$length" 0.05
  done
  sox "$work"/note*.wav "$file"
  rm "$work"/note*.wav
}

# two tones of a chime, a spoken announcement, and a traveller's question, which the card captures
sox -R -D -n -r 48000 -c 1 -b 16 high.wav synth 0.6 sine 1318.5 fade l 0.002 0.6 0.5 norm -9
sox -R -D -n -r 48000 -c 1 -b 16 low.wav synth 0.6 sine 1046.5 fade l 0.002 0.6 0.5 norm -9
speak announcer.wav 22050 -4 en 165 "The train to Newton is now arriving at platform two."
speak gap.wav 22050 -6 en 150 "Mind the gap."
speak "$work/asked.wav" 48000 -6 en+f3 165 "Excuse me, when does the train to Newton leave?"
sox "$work/asked.wav" question.wav pad 0.25

# someone who plays a tune over a bass
tune "$work/melody.wav" 0.25 G4 B4 D5 B4 E4 G4 C5 G4 F#4 A4 D5 A4 G4 B4 D5 G5 E5 C5 G4 C5 D5 A4 F#4 A4
tune "$work/bass.wav" 1 G2 C3 D3 G2 C3 D3
sox -D -m "$work/melody.wav" "$work/bass.wav" busker.wav norm -13

# the noise of a hall, and a train that comes in from the left
sox -R -D -n $sound hall.wav synth 10 brownnoise synth 10 sine amod 0.3 0 65 lowpass 500 fade 0.5 10 0.7 norm -21
sox -R -D -n $sound "$work/wheels.wav" synth 4 brownnoise synth 4 square amod 6 55 bass +6 norm -8
sox -R -D -n $sound "$work/brake.wav" synth 4 sine 1900-1650 tremolo 23 40 fade l 1.8 4 0.4 norm -24
sox -D -m -v 1 "$work/wheels.wav" -v 1 "$work/brake.wav" "$work/train.wav"
sox -D "$work/train.wav" "$work/left.wav" fade t 1 4 2.6
sox -D "$work/train.wav" "$work/right.wav" fade t 2.8 4 0.8
sox -D -M "$work/left.wav" "$work/right.wav" train.wav norm -9

# the guard's whistle
sox -R -D -n -r 16000 -c 1 -b 16 whistle.wav synth 0.6 sine 2100 tremolo 28 70 fade l 0.02 0.6 0.1 norm -14
