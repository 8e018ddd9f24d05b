#!/bin/sh
# Lists the places in src/ that may read like an older language, point by point: sh tools/places.sh [FOLDER].
# Each line is a place to look at, not a verdict. docs/DESIGN-PASS.md counts them.
cd "${1:-$(dirname "$0")/..}" || exit 1
list() {
    found=$(grep -nE "$2" crates/*/src/*.rt | grep -vE ':[0-9]+: *//')
    echo "$1: $(printf '%s\n' "$found" | grep -c .)"
    printf '%s\n' "$found" | sed 's/^/    /'
}
list '1 enums, flags, numbers that stand for cases' \
    '^(pub )?enum |[a-z_]+: bool[,)]|=> [0-9]+,$|: Option<.*,$|\[none; |: none,|^ +let none = |[a-z]+\(?\)? == [0-9]{2,}|Err\(refusal\) =>'
echo "2 names of functions that more than one body has, the methods of the kinds apart:"
grep -nE '^( *)(pub(\(crate\))? )?fn [a-z_]+' crates/*/src/*.rt | grep -vE 'crates/(variants|masks|pairs)/' |
    sed -E 's/^([^:]*):([0-9]*): *(pub(\(crate\))? )?fn ([a-z_]+).*/\5 \1:\2/' | sort |
    awk '{n[$1]++; at[$1]=at[$1] " " $2} END {for (f in n) if (n[f] > 1) print "    " f ":" at[f]}' | sort
list '3 loops' '^ *(while |loop |for |.[a-z]+: (for|while|loop) )'
list '4 impls and constants written by hand, and casts' \
    '^impl.* (PartialEq|Eq|PartialOrd|Ord|Clone|Copy|Default|Debug|fmt::Display|From<.*>|TryFrom<.*>) for |fn same\(|fn reason|^ +(action|from): 0,| as (u8|u16|u32|u64|usize)'
echo "5 parameters that three or more functions have together, and facts that three or more contracts have:"
python3 - <<'PY'
import collections, glob, itertools, re
pairs = collections.defaultdict(set)
facts = collections.defaultdict(set)
for path in sorted(glob.glob('crates/*/src/*.rt')):
    text = re.sub(r'//[^\n]*', '', open(path).read())
    for m in re.finditer(r'fn (\w+)(?:<[^{(]*>)?\(([^)]*)\)(.*?)\n *\{\n', text, re.S):
        name, params, clauses = m.groups()
        got = [p.split(':')[0].strip().replace('mut ', '') for p in params.split(',') if ':' in p]
        where = path.split('/')[1] + '::' + name
        for two in itertools.combinations(got, 2):
            pairs[two].add(where)
        for kind, fact in re.findall(r'(requires|ensures)(?: \w+)? \{ (.*) \}', clauses):
            facts[kind + ' ' + fact].add(where)
for two, where in sorted(pairs.items(), key=lambda x: -len(x[1])):
    if len(where) >= 3:
        print('    ' + ', '.join(two) + ': ' + ' '.join(sorted(where)))
for fact, where in sorted(facts.items()):
    if len(where) >= 3:
        print('    ' + fact + ': ' + ' '.join(sorted(where)))
PY
list '6 lengths beside buffers, arrays of fixed size, indices' \
    '[a-z_]+: \[[A-Za-z0-9<>]+; [0-9]+\]|held: |cells: &|: u16,$|: usize,$'
list '7 matches on a kind, and traits of one function' \
    'match (self|side|stage|request|self\.side) |^pub trait (Origin|Partners)'
echo "8 answers and lemmas: $(cat crates/*/proofs/*.antt $(find crates/*/proofs -name Answers.antt) | grep -cE '^ *(pub )?[a-z_][A-Za-z0-9_-]* : ') signatures in proofs/"
