#!/bin/sh
# Builds the comparison of the port's encodings with encoding_rs, offline, with the crate of Debian's librust-encoding-rs-dev:
#     (cd crates/gateway && rt lib)
#     sh rust/bench/build.sh crates/gateway/out/libgateway.a FOLDER
#     FOLDER/release/bench
# Nothing of the gate needs it.
set -eu
source=$(cd "$(dirname "$0")" && pwd)
library=$(cd "$(dirname "$1")" && pwd)
folder=$(mkdir -p "$2" && cd "$2" && pwd)
where=$(dpkg -L librust-encoding-rs-dev | sed -n 's#^\(.*/cargo/registry\)/.*#\1#p' | head -n 1)
project=$folder/project
mkdir -p "$project/src"
cp "$source/main.rs" "$source/book.rs" "$project/src/"
cat >"$project/Cargo.toml" <<'TOML'
[package]
name = "bench"
version = "0.0.0"
edition = "2024"

[dependencies]
encoding_rs = "0.8"

[profile.release]
lto = true
codegen-units = 1
TOML
RUSTFLAGS="-L native=$library -l static=gateway" CARGO_TARGET_DIR=$folder exec cargo build --release --offline \
    --manifest-path "$project/Cargo.toml" --config 'source.crates-io.replace-with="debian"' \
    --config "source.debian.directory=\"$where\""
