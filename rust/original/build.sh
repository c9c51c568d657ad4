#!/bin/sh
# Builds the comparison of the port's speed with the original's, offline:
#     (cd crates/gateway && rt lib)
#     sh rust/original/build.sh ORACLE FOLDER
#     FOLDER/release/original
# ORACLE is a folder with the crates tcads-core and tcads-serde as the oracle has them (the published Rust over stand-ins);
# TCADS_SRC names the published files if they don't stand beside it. Debian's librust-serde-dev, librust-serde-derive-dev and
# librust-encoding-rs-dev must be there. Nothing of the gate needs it.
set -eu
source=$(cd "$(dirname "$0")" && pwd)
oracle=$(cd "$1" && pwd)
folder=$(mkdir -p "$2" && cd "$2" && pwd)
where=$(dpkg -L librust-serde-dev | sed -n 's#^\(.*/cargo/registry\)/.*#\1#p' | head -n 1)
project=$folder/project
mkdir -p "$project/src"
cp "$source/main.rs" "$project/src/"
cat >"$project/Cargo.toml" <<TOML
[package]
name = "original"
version = "0.0.0"
edition = "2024"

[workspace]

[dependencies]
serde = "1"
tcads-core = { path = "$oracle/tcads-core" }
tcads-serde = { path = "$oracle/tcads-serde" }
speed = { path = "$source/../speed" }
model = { path = "$source/../model" }
typebook = { path = "$source/../typebook" }

[profile.release]
lto = true
codegen-units = 1
TOML
cd "$project"
CARGO_TARGET_DIR=$folder exec cargo build --release --offline \
    --config 'source.crates-io.replace-with="debian"' --config "source.debian.directory=\"$where\""
