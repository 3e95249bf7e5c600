#!/bin/sh
# Candidates for a change of design, point by point: each line is one to be judged by reading it.
cd "${1:-.}" || exit 1
echo "== 1 enums"; grep -rnE '^ *(pub(\(crate\))? )?enum [A-Z]' crates/*/src
echo "== 1 numbers and nests in results"; grep -rnE 'Result<.*, ?(u8|u16|u32|u64|usize)>|Option<Option<|Result<Result<' crates/*/src
echo "== 1 flags"; grep -rnE 'let mut [a-z_]+ = (true|false);|^ +(pub )?[a-z_]+: bool,|[(] ?[^)]*: bool[,)]' crates/*/src
echo "== 1 answers turned by match"; grep -rnE '(Some\([a-z_]+\)|Ok\([a-z_()]*\)|Ok\(\(\)\)|None|Err\([a-z_]+\)) => (Ok|Err|Some|None|return Err|return Ok|return None)\b' crates/*/src
echo "== 3 loops"; grep -rnE '\b(while|loop|for) ?[^<{]*\{$|\bloop \{' crates/*/src | grep -vE 'impl|trait'
echo "== 3 counts"; grep -rnE '[a-z_.]+ (\+|-)= 1;|saturating_add\(1\)' crates/*/src
echo "== 3 hand-written minima, tests of emptiness, first items"; grep -rnE 'if .* < .* \{ .* \} else \{|len\(\) (==|>|!=) [01]\b|\[0\]|\[1\.\.\]' crates/*/src
echo "== 4 impls"; grep -rnE '^ *impl.*\b(PartialEq|Eq|PartialOrd|Ord|Clone|Copy|Default|Hash|From<.*|TryFrom<.*|fmt::Display|fmt::Debug)\b.* for ' crates/*/src
echo "== 4 fields copied one by one"; grep -rnE '^ +([a-z_]+): [a-z_]+\.\1,$' crates/*/src
echo "== 5 clauses that stand three times or more"; grep -rhoE '(requires|ensures)( [a-z_]+)? \{.*\}' crates/*/src | sed -E 's/^(requires|ensures)( [a-z_]+)? /\1 /' | sort | uniq -c | sort -rn | awk '$1>=3'
echo "== 6 arrays"; grep -rnE '\[[^]]*; ?[A-Za-z0-9_]+\]' crates/*/src
echo "== 7 functions as values, dispatch"; grep -rnE 'dyn |fn\(|impl Fn|\bFn(Mut|Once)?\(|=> [a-z_]+\.next\(' crates/*/src
echo "== 8 answers, lemmas"; for c in crates/*/; do n=$(basename $c); echo "$n answers $(cat $(find $c/proofs -name Answers.antt 2>/dev/null) /dev/null | grep -cE '^[A-Za-z_][A-Za-z0-9_-]*( [^=:]*)? =') lines $(cat $(find $c/proofs -name '*.antt' 2>/dev/null) /dev/null | wc -l)"; done
