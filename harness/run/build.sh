#!/bin/sh
# Builds the oracle: harness/run/build.sh FOLDER, where FOLDER holds the ten listed files of apollo-compiler 1.33.1 at their own paths (its `src`); the variable
# APOLLO_SRC does as well. The files are linked, not copied, and nothing is fetched: Debian's crates are taken from CRATES (/usr/share/cargo/registry).
set -eu
if [ $# -gt 0 ]; then APOLLO_SRC=$1; fi
: "${APOLLO_SRC:?say where the Rust sources are: harness/run/build.sh FOLDER}"
sources=$(cd "$APOLLO_SRC" && pwd)
crates=${CRATES:-/usr/share/cargo/registry}
cd "$(dirname "$0")/.."
listed=$(awk '{ print $2 }' sources.sha256)
(cd "$sources" && sha256sum --quiet --check -) <sources.sha256

# The crate as the compiler sees it: the harness and its stand-ins, with the listed files linked in between.
rm -rf target/crate
mkdir -p target/crate
cp -R Cargo.toml src standins target/crate/
for file in $listed; do ln -s "$sources/$file" "target/crate/src/$file"; done
# Modules of which the listed files want no more than that they are there.
for module in argument directive enum_ field fragment input_object interface object operation scalar schema selection union_ value variable; do
    : >"target/crate/src/validation/$module.rs"
done
: >target/crate/src/schema/serialize.rs
# The builder includes the built-in file's text; document 0 takes its place, so it is empty.
: >target/crate/src/built_in_types.graphql

CARGO_TARGET_DIR=$PWD/target/build cargo build --quiet --release --offline --manifest-path target/crate/Cargo.toml \
    --config 'source.crates-io.replace-with="debian"' --config "source.debian.directory=\"$crates\""
cp target/build/release/oracle target/oracle.new
mv target/oracle.new target/oracle
