#!/usr/bin/env bash
# The example host, built and run: its output is the stored one.
set -eu
cd "$(dirname "$0")/.."
make -s target/host/caption_link
target/host/caption_link | diff - tests/caption_link.out
