#!/bin/sh
# Tries must-fail edits, those of must-fail/ and those beside the gate, and says of each whether the check refuses it.
#
#     sh dev/edits.sh [--since COMMIT] [CRATE..]
#
# edits.py beside this file does it, and says more.
exec python3 "$(dirname "$0")/edits.py" "$@"
