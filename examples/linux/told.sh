#!/usr/bin/env bash
# Of a console (standard input), what is compared: not the firmware's part, which examples/opensbi has, nor carriage
# returns, nor the kernel's lines that tell of its build or of addresses. A line of the program ("init: ") stays.
set -eu
tr -d '\r' | sed -n '/^Linux version/,$ p' |
    sed -E '/^init: /! { /^(Linux version|Memory:|percpu:|Freeing unused)|\[mem 0x|memory range 0x/ d }'
