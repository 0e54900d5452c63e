#!/usr/bin/env bash
# Looks up what the pages name: each link and path, each crate, the headings of decisions, the transcripts and the version; and
# that nothing is imported which is not used. Looks how sources and definitions are laid out, too.
set -euo pipefail
folder=$(dirname "$0")/pages
python3 -B "$folder/imports.py"
python3 -B "$folder/house.py"
exec python3 -B "$folder/look_up.py"
