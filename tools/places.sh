#!/bin/sh
# Lists the places that docs/DESIGN-PASS.md counts, in src/ at a commit: tools/places.sh COMMIT [POINT]
# Each point is a search for what its places look like; docs/DESIGN-PASS.md says which of them are of the kind.
set -f
c=${1:-HEAD}
src="crates/*/src/*.rt"
point() {
    case $1 in
    1) git grep -nE "^(pub )?enum |: bool\b.*: bool|\(bool, |, bool\)|[-]> Result<bool|: u8 = 0x|(0|seven|7) (is|means|for) (none|one|a)|, or seven|rule: [0-9u]" "$c" -- $src ;;
    2) git grep -hE "^ *(pub(\(crate\))? )?fn [a-z_]+" "$c" -- $src ':!*/tests*' | sed -E 's/.*fn ([a-z_]+).*/\1/; s/_among$//; s/^fetch_slot$/fetch/; s/^read_(page|front|bytes)$/fetch/; s/^first_page$/fetch/; s/^(slot|flags|block|directory)_(of|at)$/place/; s/^(pair|chunk|page)_is_over$/is_over/' | grep -vE "^(new|from|try_from|fmt|drop|blocks|power|home|read|program|erase|power_on|main|run|end|get|len|as_slice)$" | sort | uniq -cd ;;
    3) git grep -nE "\bfor .* in [^ ]*\.\.|\.enumerate\(\)|\bwhile |\bloop \{" "$c" -- $src ;;
    4) git grep -nE "^ *impl.*(From|TryFrom|PartialEq|PartialOrd|Ord|Eq|Clone|Display)\b|256 \* u|\bas (u8|u16|u32|char)\b|fn (same|tell|is_at|plain|figures|number|keep_first)\b" "$c" -- $src ;;
    5) git grep -hE "^ *requires " "$c" -- $src | sed -E 's/^ *requires ([a-z_]+ )?//; s/(chip|self|engine|page|into|log|layout|buffer|name|label|given)\.(old|now)\b/\1/g' | sort | uniq -c | awk '$1 >= 3' ;;
    6) git grep -nE "^ *(pub )?(len|count): usize,|^ *(pub )?[a-z]+: \[[A-Za-z<>0-9]+; ?[A-Z_0-9]+\],|^ *[a-z]+: &(mut )?\[[A-Za-z<'>]+\],$" "$c" -- $src ':!*/tests*' ;;
    7) git grep -nE "match rule|closed: bool|: fn\(|\bdyn |impl Fn|: Fn(Once|Mut)?\(" "$c" -- $src ;;
    8) for d in $(git ls-tree -d --name-only "$c" crates/); do
            n=$(git ls-tree -r --name-only "$c" "$d/proofs" | while read -r f; do git show "$c:$f"; done | wc -l)
            echo "$n $d"
        done ;;
    esac
}
for p in ${2:-1 2 3 4 5 6 7 8}; do
    echo "== $p"
    point "$p"
done
