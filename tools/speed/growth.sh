#!/bin/sh
# growth.sh SRC LIB OUT: builds OUT/speed as run.sh does, and prints how time and memory grow with n, to 2,000,000.
set -eu
sh "$(dirname "$0")/../oracle/build.sh" "$1" "$3" speed "$2"
"$3/speed" growth "$3/pattern"
