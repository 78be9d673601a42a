#!/bin/sh
# Builds the measuring driver: bench/build.sh, then target/bench/driver ROUNDS > docs/benchmarks.csv
#   SRC   where the published Rust stands (see oracle/README.md); nothing of it is kept in the repository
#   CC    the C compiler for plain.c (default: cc)
# Needs crates/sogbayile/out/libsogbayile.a (rt lib in crates/sogbayile), cargo, and what oracle/README.md names.
set -eu
here=$(cd "$(dirname "$0")" && pwd)
top=$(cd "$here/.." && pwd)
OUT=$top/target/bench
REG=${REG:-/usr/share/cargo/registry}
CC=${CC:-cc}
mkdir -p "$OUT"
OUT="$OUT/oracle" SRC="$SRC" REG="$REG" "$top/oracle/build.sh"

# the driver, beside the oracle's copies; its own profile has no debug assertions and no overflow checks
D=$OUT/package
rm -rf "$D/src"
mkdir -p "$D/src" "$D/.cargo"
cp "$here"/driver/*.rs "$D/src/"
cp "$OUT/oracle/harness/src/one_point.rs" "$D/src/one_point.rs"
cp -r "$OUT/oracle/harness/src/one_point" "$D/src/one_point"
cp "$OUT/oracle/.cargo/config.toml" "$D/.cargo/config.toml"
$CC -std=gnu11 -O3 -c -o "$OUT/plain.o" "$here/plain.c"
ar rcs "$OUT/libplain.a" "$OUT/plain.o"
cat >"$D/Cargo.toml" <<T
[package]
name = "driver"
version = "0.0.0"
edition = "2024"
build = "build.rs"
[dependencies]
rossi = { path = "../oracle/rossi" }
sogbayile = { path = "$top/rust" }
[profile.release]
opt-level = 3
lto = true
codegen-units = 1
[workspace]
T
cat >"$D/build.rs" <<T
fn main() {
    println!("cargo:rustc-link-search=native=$OUT");
    println!("cargo:rustc-link-lib=static=plain");
    println!("cargo:rerun-if-changed=$OUT/libplain.a");
}
T
(cd "$D" && CARGO_TARGET_DIR="$OUT/cargo" cargo build --release --quiet --offline)
cp "$OUT/cargo/release/driver" "$OUT/driver"
echo "built $OUT/driver"
