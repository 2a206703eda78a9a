#!/usr/bin/env bash
# The archive defines the thirteen calls and nothing else, keeps no state (no writable data), and needs nothing of the host but memset and
# memcpy.
set -eu
cd "$(dirname "$0")/.."
archive=target/host/liblembikat.a
diff <(nm -g --defined-only "$archive" | awk 'NF == 3 { print $3 }' | sort) <(
    printf 'lembikat_%s\n' build_table decode encode load_state locate look_up margin nearest_word read report set_bit spread \
        sweep_state
)
state=$(objdump -h "$archive" | awk '$2 ~ /^\.(data|bss|tdata|tbss)/ && $3 !~ /^0+$/ { print $2 }')
[ -z "$state" ] || { echo "writable data: $state"; exit 1; }
needs=$(nm -u "$archive" | awk 'NF == 2 { print $2 }' | grep -v -x -e memset -e memcpy || true)
[ -z "$needs" ] || { echo "needs $needs"; exit 1; }
