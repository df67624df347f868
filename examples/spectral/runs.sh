#!/bin/sh
# runs.sh FOLDER COMMAND..: what 'make example-openjpeg' runs, small images that meet each case. COMMAND is the program, with what it runs under.
set -eu
folder=$1
shift
# spectral WHY OPTION..
spectral() {
    echo "== $1"
    shift
    "$@" -d "$folder"
}
spectral 'every scheme, without loss of a component' "$@"
spectral 'a rate; 6 components of 40 by lanczos' "$@" -b 40 -k 6 -s 64 -r 0.5 plain main
spectral 'sums too large for a covariance' "$@" -b 8 -s 256 -t 256 main
spectral 'too many samples for one; more tiles than the store has entries' "$@" -b 3 -s 512 -t 64 main
spectral 'blocks too long for all to wait' "$@" -b 40 -s 128 own
spectral 'a limit that some tiles use up' "$@" -b 8 -s 64 -l 3 own
spectral 'a limit that the image uses up' "$@" -b 8 -s 64 -l 2 main
spectral 'a damaged block' "$@" -b 8 -s 64 -x 2 own
spectral 'a box that is missing' "$@" -b 8 -s 64 -m 1 main
