# Builds for programs that link the proved library and the oracle; to be sourced. `root` is the project's folder.

library=$root/target/staticlib/libjettyfig.a

# stale FILE FOLDER..: FILE is missing, or older than a file of the folders
stale() { [ ! -e "$1" ] || [ -n "$(find "${@:2}" -type f -newer "$1" -print -quit)" ]; }

# build_oracle WORK SOURCE: the oracle, in WORK/oracle
build_oracle() {
  if stale "$1/oracle/target/release/oracle" "$2" "$root/tests/oracle"; then
    "$root/tests/oracle/build.sh" "$2" "$1/oracle" || return
    touch "$1/oracle/target/release/oracle"
  fi
}

build_library() {
  if stale "$library" "$root"/crates/*/src; then
    "$root/tools/build" jettyfig || return
    touch "$library"
  fi
}

# build_program WORK NAME MAIN CHECKS: a Rust program that links both, WORK/program/target/release/NAME. With CHECKS true
# arithmetic that overflows panics, in the oracle too
build_program() {
  mkdir -p "$1/program"
  cat > "$1/program/Cargo.toml" <<T
[package]
name = "$2"
version = "0.0.1"
edition = "2024"
build = "$root/tests/oracle/link.rs"
[[bin]]
name = "$2"
path = "$3"
[dependencies]
oracle = { path = "../oracle" }
[profile.release]
overflow-checks = $4
debug-assertions = $4
[workspace]
T
  (cd "$1/program" && JETTYFIG_LIBRARY_FOLDER=$(dirname "$library") RUSTFLAGS=-Awarnings cargo build --release --offline -q)
}
