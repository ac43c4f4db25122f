#!/bin/sh
# Counts the places that docs/DESIGN-PASS.md speaks of, by patterns alone. Run at the top: sh tools/count_places.sh
files() { git ls-files 'crates/*/src/*.rt'; }
src() { files | xargs grep -nE "$@" | sed 's/^crates\///'; }
say() { echo; echo "## $1"; }

say "enums; numbers given for cases; an Option or a Result taken apart into a stand-in"
src '^\s*(pub(\([a-z]+\))? )?enum '
src '=> [0-9]+,|=> \*at,'
src '(Err|None|Ok)\(?_?\)? => (None|0|false|line)|return &\[\]|return 0;'
say "functions by name, where a name or a body stands more than once"
src '^\s*(pub(\([a-z]+\))? )?fn [a-z_]+' | sed -E 's/.*fn ([a-z_]+).*/\1/' | sort | uniq -c | awk '$1 > 1'
say "loops"
src '^\s*(while|loop|for) ' | grep -v ' for [A-Z][A-Za-z]*[ <].*{$' | grep -v '^[a-z_/.]*:[0-9]*:impl'
say "casts; comparisons, conversions and printing with a body of their own; types without Debug"
src '\bas (usize|u8|u16|u32|u64|i64|i32|isize)\b' | grep -v 'ghost use'
src 'impl.* (PartialEq|Eq|Ord|PartialOrd|Clone|Copy|Display|Debug|From<.*>|TryFrom<.*>|Default) for '
src 'fn (read|same|spell|decimal|signed|negative)\b'
src '#\[derive' | grep -v Debug
say "requires and ensures that stand three times or more; words for the meaning of a record"
files | xargs grep -hoE '(requires|ensures)( [a-z_]+)? \{ .* \}' | sed -E 's/^(requires|ensures) [a-z_]+ /\1 /' | sort | uniq -c | awk '$1 > 2'
files | xargs grep -hoE '\b(size|ids|reading|left|state) \(?(self|result|capacity|from|to|node_count|fields|chart)\b' | awk '{print $1}' | sort | uniq -c
say "arrays and buffers in fields, with what stands beside them"
src '^\s+[a-z_]+: (\[[a-z0-9]+; |&.* \[|Option<&)' | grep -v ';$' | grep -v '\[0; '
say "closures, functions as values"
src '\|[a-z_, ]*\| |impl Fn|dyn |: fn\('
say "answers and lines in proofs/"
git ls-files 'crates/*/Answers.antt' | xargs grep -hcE '^pub ' | awk '{s += $1} END {print s " answers in " NR " files"}'
git ls-files 'crates/*/proofs/*' | xargs cat | wc -l | awk '{print $1 " lines in proofs/"}'
