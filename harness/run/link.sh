#!/bin/sh
# Proves the library (only what was changed) and links it into harness/target/library, which lists a case folder and answers its questions, and into
# harness/target/parse, which reads texts.
set -eu
cd "$(dirname "$0")/../.."
(cd crates/gimletaspen && rt lib) >&2
mkdir -p harness/target
${CC:-cc} -O2 -Wall -Wextra -D_DEFAULT_SOURCE -Iinclude -o harness/target/library harness/library.c crates/gimletaspen/out/libgimletaspen.a
${CC:-cc} -O2 -Wall -Wextra -D_DEFAULT_SOURCE -Iinclude -o harness/target/parse harness/parse.c crates/gimletaspen/out/libgimletaspen.a
