#!/bin/sh
# Builds the oracle: tests/oracle/build.sh RUST_SRC_DIR BUILD_DIR
# RUST_SRC_DIR is the folder src of the published Rust (lattice/*.rs, edge.rs, utils.rs).
# Needs cargo 1.88 or newer and Debian's librust-regex-dev, which is installed where missing.
set -eu
[ $# = 2 ] || { sed -n 2,4p "$0"; exit 2; }
here=$(cd "$(dirname "$0")" && pwd)
src=$(cd "$1" && pwd)
mkdir -p "$2"
out=$(cd "$2" && pwd)
files="lattice/mod.rs lattice/paths.rs lattice/romanize.rs lattice/rules.rs lattice/word_boundaries.rs edge.rs utils.rs"

# --- the published files, with the edits listed here and no others ---
mkdir -p "$out/src/lattice" "$out/vendor"
for f in $files; do cp "$src/$f" "$out/src/$f"; done
# the passes left out are empty modules
for m in braille numbers tibetan; do : > "$out/src/lattice/$m.rs"; done
# spans keep their edges in adding order
sed -i 's/HashMap<(usize, usize), HashSet<Edge>>/HashMap<(usize, usize), crate::shim::OrderedSet>/' "$out/src/lattice/mod.rs"
# general categories from the class table
sed -i 's/^use unicode_properties::/use crate::shim::unicode_properties::/' \
  "$out/src/lattice/romanize.rs" "$out/src/lattice/word_boundaries.rs" "$out/src/utils.rs"
# \p{L} and \p{M} from the class table
sed -i -e 's/^static P_L_OR_M: .*/static P_L_OR_M: crate::shim::LOrM = crate::shim::LOrM { at_end: false };/' \
       -e 's/^static P_L_OR_M_END: .*/static P_L_OR_M_END: crate::shim::LOrM = crate::shim::LOrM { at_end: true };/' \
  "$out/src/lattice/word_boundaries.rs"
# no serde, no num_rational
sed -i -e '/^use serde::Serialize;$/d' -e 's/^use num_rational::/use crate::shim::num_rational::/' \
       -e 's/^\(#\[derive(.*\), Serialize/\1/' "$out/src/edge.rs"
# what was edited must be what edits.diff lists: 21 lines, taken out or put in
for f in $files; do
  (cd "$src" && diff -U0 "$f" "$out/src/$f" | sed '1,2d' || true) | sed "s|^|$f: |"
done > "$out/edits.diff"
n=$(grep -c '^[^ ]*: [-+]' "$out/edits.diff" || true)
[ "$n" = 21 ] || { echo "21 edited lines expected, found $n"; cat "$out/edits.diff"; exit 1; }
cmp "$here/edits.diff" "$out/edits.diff"

# edited_too NAME FILE EDIT: lattice/FILE is edited once more, by sed, and NAME.diff lists what comes of it
edited_too() {
  cp "$out/src/lattice/$2" "$out/$2"
  sed -i "$3" "$out/src/lattice/$2"
  (cd "$out" && diff -U0 "$2" "src/lattice/$2" | sed '1,2d' || true) | sed "s|^|lattice/$2: |" > "$out/$1.diff"
  cmp "$here/$1.diff" "$out/$1.diff"
}
# --- one line more, which does add logic: the Python rule for capitals, where a call chooses it ---
edited_too capitals romanize.rs 's|^        // Gemination: .*|        rom = crate::capitals::as_python(rom, start, end, next_char);|'
# --- and one more: where the walk back behind O ang ends, where a call chooses it ---
walk='self.find_rom_edge_path_backwards_str'
edited_too o_ang romanize.rs "s/$walk(0, start, Some(1), false)/crate::o_ang::walked(\&self.s_chars, start, |from| $walk(from, start, Some(1), false))/"
# --- and two: which text a "rom-alt2" has, where a call chooses it ---
alt2='(rom_t, rom_end_of_syllable).to_string()'
edited_too readings paths.rs "
  s/rom_t == old_rom && existing_edges.insert((start, end, rom_t.to_string()))/rom_t == old_rom \&\& existing_edges.insert((start, end, crate::readings::asked$alt2))/
  /^ *rom_t.to_string(),\$/{N; /\"rom-alt2\"/s/rom_t.to_string()/crate::readings::listed$alt2/}"
# --- two lines more: whether the neighbours of a decomposed character are numbers, from the class table ---
edited_too numbers romanize.rs 's/c\.is_numeric()/crate::dicts::is_number(*c)/'
cp "$here"/src/*.rs "$out/src/"

# --- regex and its three helpers from Debian's package, as path crates ---
dpkg -s librust-regex-dev > /dev/null 2>&1 || {
  apt-get update -q > /dev/null && apt-get install -y -q librust-regex-dev > /dev/null
}
registry=$(dpkg -L librust-regex-dev | grep '/regex-[0-9.]*/Cargo.toml$' | sed 's|/regex-[0-9.]*/Cargo.toml$||')
vendor() { # NAME FEATURES DEPENDENCIES PACKAGE_LINE
  rm -rf "$out/vendor/$1"
  cp -r "$(ls -d "$registry/$1"-[0-9]* | head -1)" "$out/vendor/$1"
  (cd "$out/vendor/$1" && rm -rf .cargo-checksum.json tests examples benches)
  printf '[package]\nname = "%s"\nversion = "0.0.1"\nedition = "2018"\n%s\n[features]\n%s\n[dependencies]\n%s\n' \
    "$1" "$4" "$2" "$3" > "$out/vendor/$1/Cargo.toml"
}
std='std = []
default = ["std"]'
unicode='unicode-age = []
unicode-bool = []
unicode-case = []
unicode-gencat = []
unicode-perl = []
unicode-script = []
unicode-segment = []
unicode = ["unicode-age","unicode-bool","unicode-case","unicode-gencat","unicode-perl","unicode-script","unicode-segment"]'
vendor memchr "$std" '' 'build = "build.rs"'
vendor aho-corasick "$std" 'memchr = { path = "../memchr" }' ''
vendor regex-syntax "$unicode
default = [\"unicode\"]" '' ''
vendor regex "$unicode
std = []
perf-cache = []
perf-dfa = []
perf-inline = []
perf-literal = []
default = [\"std\",\"perf-cache\",\"perf-dfa\",\"perf-inline\",\"perf-literal\",\"unicode\"]" \
'aho-corasick = { path = "../aho-corasick" }
memchr = { path = "../memchr" }
regex-syntax = { path = "../regex-syntax" }' ''

# arithmetic that overflows panics, and a panic is an answer of its own
cat > "$out/Cargo.toml" <<T
[package]
name = "oracle"
version = "0.0.1"
edition = "2024"
[dependencies]
regex = { path = "vendor/regex" }
[profile.release]
overflow-checks = true
debug-assertions = true
[workspace]
exclude = ["vendor"]
T
cd "$out"
RUSTFLAGS="-Awarnings" cargo build --release --offline -q
echo "built $out/target/release/oracle"
