#!/usr/bin/env bash
# Copies beam_run and beam_draw to PREFIX/bin, builds them first where need be: ./install.sh [PREFIX], $HOME/.local without.
set -eu
top=$(cd "$(dirname "$(readlink -f "${BASH_SOURCE[0]}")")" && pwd)
bin=${1:-$HOME/.local}/bin
"$top/beam_run" help >/dev/null
"$top/beam_draw" "$top/examples/sessions/plan.json" >/dev/null
mkdir -p "$bin"
install "$top/crates/beam_run/out/beam_run" "$top/crates/beam_draw/out/beam_draw" "$bin"
echo "beam_run and beam_draw are in $bin"
