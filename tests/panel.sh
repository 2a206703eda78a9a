#!/usr/bin/env bash
# The panel, built and run. Where its output is no terminal it writes its pages one after another: they are the stored ones.
set -eu
cd "$(dirname "$0")/.."
make -s target/host/panel
target/host/panel | diff - tests/panel.out
