#!/bin/sh
# Builds the proved library, which proves what no check here has kept yet, and the hosts. The host prints the chart of its small record, which is
# compared; the recorded jobs are replayed. Both run under valgrind, where there is one: nothing outside the lent memory is read or written, and
# nothing depends on bytes of it that were never written. Both run once more built with gcc's sanitizers, where it has them. A third host measures
# the stack that calls take.
set -e
cd "$(dirname "$0")/.."
(cd crates/sumopine && rt lib)
library=crates/sumopine/out/libsumopine.a
mkdir -p target

# hosts WATCH FLAG..: builds both with these flags and runs them under WATCH.
hosts() {
    watch=$1
    shift
    for program in main replay; do
        gcc -O2 -Wall -Wextra -Werror -std=c11 "$@" -Iinclude -o target/host-$program host/$program.c $library
    done
    $watch target/host-main > target/host-printed
    diff target/host-printed host/expected
    $watch target/host-replay crates/vectors/data/jobs.bin
}

gcc -O2 -Wall -Wextra -Werror -std=gnu11 -Iinclude -o target/host-stack host/stack.c $library
target/host-stack crates/vectors/data/jobs.bin

if command -v valgrind > /dev/null; then
    hosts "valgrind -q --error-exitcode=1 --leak-check=full"
else
    echo "host: there is no valgrind, the hosts run without it"
    hosts ""
fi
sanitizers="-fsanitize=address,undefined -fno-sanitize-recover=all"
if echo 'int main(void) { return 0; }' | gcc $sanitizers -x c -o target/host-sanitized - 2> /dev/null && target/host-sanitized; then
    hosts "" $sanitizers
else
    echo "host: gcc has no sanitizers, the hosts run without them"
fi
echo "host: ok"
