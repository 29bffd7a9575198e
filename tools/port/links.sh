#!/usr/bin/env bash
# Puts a copy in the place of each link below crates/: `rt ci` and port.py refuse links. Run at the top, before port.py.
set -eu
find crates -type l -not -path '*/out/*' | while read -r link; do
  target=$(dirname "$link")/$(readlink "$link")
  rm "$link"
  cp "$target" "$link"
done
