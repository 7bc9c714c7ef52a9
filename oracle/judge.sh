# Sourced by compare and record, and by bench/run: finds the original, and builds the judge.
#
# Sets root, the repository's root; ops, the ops that are compared; and, once
# build_judge has run, judge, the program built.

root=$(cd "$(dirname "${BASH_SOURCE[0]}")/.." && pwd)
ops=$(<"$root/oracle/ops")

fail() {
  echo "${0##*/}: $*" >&2
  exit 2
}

# find_original [ORIGINAL-FOLDER]: sets ORIGINAL
find_original() {
  local folder=${1:-$root/../shared/docs/src}
  [[ -f $folder/crates/core/src/source.rs ]] ||
    fail "the original is not in $folder: crates/core/src/source.rs is missing there." \
      "Name its folder as the last argument."
  command -v cargo >/dev/null ||
    fail "cargo is missing: the original is built from Rust."
  ORIGINAL=$(cd "$folder" && pwd)
  export ORIGINAL
}

# build_judge [ORIGINAL-FOLDER]
build_judge() {
  find_original "$@"
  local target=$root/target/oracle
  cargo build --manifest-path "$root/oracle/Cargo.toml" --target-dir "$target" \
    --release --offline --quiet || fail "the judge could not be built."
  judge=$target/release/oracle
}
