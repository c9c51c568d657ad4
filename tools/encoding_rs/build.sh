#!/bin/sh
# Builds the program that asks encoding_rs, offline, with the crate of Debian's librust-encoding-rs-dev, into the folder
# that is named: sh build.sh FOLDER, then FOLDER/release/ask. Nothing of the gate needs it.
set -eu
source=$(cd "$(dirname "$0")" && pwd)
folder=$(mkdir -p "$1" && cd "$1" && pwd)
where=$(dpkg -L librust-encoding-rs-dev | sed -n 's#^\(.*/cargo/registry\)/.*#\1#p' | head -n 1)
project=$folder/project
mkdir -p "$project/src"
cp "$source/main.rs" "$project/src/main.rs"
cat >"$project/Cargo.toml" <<'TOML'
[package]
name = "ask"
version = "0.0.0"
edition = "2024"

[dependencies]
encoding_rs = "0.8"
TOML
CARGO_TARGET_DIR=$folder exec cargo build --release --offline --manifest-path "$project/Cargo.toml" \
    --config 'source.crates-io.replace-with="debian"' --config "source.debian.directory=\"$where\""
