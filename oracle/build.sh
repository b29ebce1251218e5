#!/usr/bin/env bash
# build.sh [--f64] SRC OUT [RUSTC] [CFG]: compiles the sweep_toi module of parry2d 0.31.1 over our prelude into OUT/oracle, in release mode; with --f64
# in f64 into OUT/oracle64, from the same files.
# SRC is the folder that holds query/sweep_toi/*.rs and shape/cuboid.rs as published. Nothing of it is kept here: OUT gets a working copy, of
# shape/cuboid.rs only the function that numbers a corner.
# Mechanical edits, and no others, each of which must fit as often as it says:
#   1. `.max(` on a number becomes `.max_of(`, the prelude's rule, which the two files then import.
#   2. in proxy_distance.rs the way a call ends is noted: round limit at its start, touching and settled where it leaves the loop.
#      With the CFG `rounds` what each solve keeps is noted too.
#   3. in sweep_toi.rs distance calls, separation searches and root steps are counted where they are made.
#   4. in toi_proxy.rs `support` notes the highest index whose value equals the best, and in separation.rs a search notes for either side what
#      `support` told of it, or that the side is a face's.
set -eu
here="$(cd "$(dirname "$0")" && pwd)"
width=f32; name=oracle
if [ "$1" = --f64 ]; then width=f64; name=oracle64; shift; fi
src="$1/query/sweep_toi"; out="$2"; rustc="${3:-rustc}"
mkdir -p "$out/sweep_toi"
for f in sweep toi_proxy proxy_distance separation sweep_toi; do cat "$src/$f.rs" > "$out/sweep_toi/$f.rs"; done
edit() { # edit FILE TIMES OLD NEW
  python3 - "$out/sweep_toi/$1.rs" "$2" "$3" "$4" <<'PY'
import sys
path, times, old, new = sys.argv[1], int(sys.argv[2]), sys.argv[3], sys.argv[4]
text = open(path, encoding="utf-8").read()
if text.count(old) != times:
    sys.exit(f"{path}: {old!r} stands {text.count(old)} times, not {times}")
open(path, "w", encoding="utf-8").write(text.replace(old, new))
PY
}
edit sweep_toi 1 'linear_slop.max(' 'linear_slop.max_of('
edit proxy_distance 1 '- radius_b).max(' '- radius_b).max_of('
for f in sweep_toi proxy_distance; do
  edit $f 1 'use super::toi_proxy::ToiProxy;' 'use super::toi_proxy::ToiProxy; use crate::math::MaxOf;'
done
noted='crate::counts::ending(crate::counts'
edit proxy_distance 2 'let mut output = ProxyDistanceOutput::default();' "let mut output = ProxyDistanceOutput::default(); $noted::ROUND_LIMIT);"
edit proxy_distance 1 'corresponding triangle.
        if count == 3 {' "corresponding triangle.
        #[cfg(rounds)] crate::counts::kept(count, simplex.map(|v| (v.index_a, v.index_b)));
        if count == 3 { $noted::TOUCHING);"
edit proxy_distance 1 'if d.dot(d) < Real::EPSILON * Real::EPSILON {' "if d.dot(d) < Real::EPSILON * Real::EPSILON { $noted::TOUCHING);"
edit proxy_distance 2 'if duplicate {' "if duplicate { $noted::SETTLED);"
edit sweep_toi 1 'distance_iterations += 1;' 'distance_iterations += 1; crate::counts::distance_call();'
edit sweep_toi 1 'fcn.find_min_separation(t2);' '{ crate::counts::search(); fcn.find_min_separation(t2) };'
edit sweep_toi 1 'root_iteration_count += 1;' 'root_iteration_count += 1; crate::counts::root_step();'
corners='crate::counts::corners'
edit toi_proxy 1 'let mut best_index = 0;
' 'let mut best_index = 0; let mut second_index = 0;
'
edit toi_proxy 1 'best_value = value;
            }
' 'best_value = value; second_index = i;
            } else if value == best_value {
                second_index = i;
            }
'
edit toi_proxy 1 'best_index as u32
    }' 'crate::counts::second(second_index as u32); best_index as u32
    }'
edit separation 1 'let index_a = self.proxy_a.support(axis_a);
                let index_b = self.proxy_b.support(axis_b);

' "let index_a = self.proxy_a.support(axis_a); $corners(0, index_a);
                let index_b = self.proxy_b.support(axis_b); $corners(1, index_b);

"
edit separation 1 'let index_b = self.proxy_b.support(axis_b);
                let point_b = ' "crate::counts::face(0);
                let index_b = self.proxy_b.support(axis_b); $corners(1, index_b);
                let point_b = "
edit separation 1 'let index_a = self.proxy_a.support(axis_a);
                let point_a = ' "crate::counts::face(1);
                let index_a = self.proxy_a.support(axis_a); $corners(0, index_a);
                let point_a = "
python3 - "$1/shape/cuboid.rs" "$out/cuboid.rs" <<'PY'
import sys
text = open(sys.argv[1], encoding="utf-8").read()
head = '    #[cfg(feature = "dim2")]\n    pub fn vertex_feature_id(vertex: Vector) -> u32 {\n'
if text.count(head) != 1:
    sys.exit(f"{sys.argv[1]}: vertex_feature_id of two dimensions stands {text.count(head)} times, not 1")
body, end, _ = text.partition(head)[2].partition("\n    }\n")
open(sys.argv[2], "w", encoding="utf-8").write("use crate::{math::Vector, shape::Cuboid};\nimpl Cuboid {\n" + head + body + end + "}\n")
PY
cp "$here"/*.rs "$out/"
"$rustc" --edition 2021 -C opt-level=3 --cfg 'feature="dim2"' --cfg "feature=\"$width\"" -A warnings ${4:+--cfg "$4"} -o "$out/$name" "$out/main.rs"
