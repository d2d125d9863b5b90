set -e
cd /tmp/fmt/shim
C=/work/c/format/crates
for n in typed_nodes layout_items formatting; do rm -rf src_$n; python3 prep.py $C/$n/src src_$n; done
R="rustc --edition 2024 -A warnings -C opt-level=1 -L ."
X="--extern rstd --extern tokens --extern source_text --extern tree"
lib() { n=$1; s=$2; shift 2; e=""; for x in "$@"; do e="$e --extern $x"; done; $R --crate-type rlib --crate-name $n $s $e; }
if [ ! -f libtyped_nodes.rlib ]; then lib rstd rstd.rs; lib tokens tokens.rs; lib source_text source_text.rs; lib tree tree.rs; lib unwrapping unwrapping.rs rstd tokens source_text; lib typed_nodes src_typed_nodes/lib.rs tree rstd; fi
lib layout_items src_layout_items/lib.rs rstd
lib formatting src_formatting/lib.rs rstd tokens source_text tree unwrapping typed_nodes layout_items
$R --crate-name fmt main.rs -o fmt --extern rstd --extern tokens --extern source_text --extern tree --extern unwrapping --extern layout_items --extern formatting
