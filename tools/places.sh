#!/bin/sh
# Lists, for each point of docs/DESIGN-PASS.md, the lines of src/ where a place of it may stand. Run at the top of the repository.
cd "$(dirname "$0")/.." || exit 1
list() { grep -rnE "$1" crates/*/src --include='*.rt'; }

echo "== 1a enums"
list '^ *(pub(\(crate\))? )?enum '
echo "== 1b an Option or a Result taken apart by hand, arm by arm"
list '(Err|Some|Ok)\([a-z_()]*\) => |None => |else \{$' | grep -vE '\} else \{|println'
echo "== 1c a flag or a sentinel beside a value"
list '[a-z_]+: bool|= 33\b'
echo "== 1d numbers for kinds, refusals and alternatives"
list '^ *[0-9] (if .*)?=> |== 3\b|=> [1-4][1-8],$|alternative: u8'
echo "== 2 twins: see the page, 'duplicates' is run on copies named .rs"
echo "== 3 loops"
list '^ *('"'"'[a-z]+: )?(for|while|loop)\b'
echo "== 4 equality, order, conversion and printing by hand"
list 'fn (put|put_[a-z]+|less|is_same|told|number|shown)\('
echo "== 5 facts that stand in three or more clauses, by their count"
grep -rhE '^ *(requires|ensures)' crates/*/src --include='*.rt' | sed -E 's/^ *(requires|ensures)[a-z_ ]*\{ //; s/ \};?$//; s/ (×|→) /\n/g' \
    | sed -E 's/^[( ]+//; s/[) ]+$//' | sort | uniq -c | sort -rn | awk '$1 >= 3 { print }'
echo "== 6 arrays of fixed size, and lengths beside them"
list '\[[A-Za-z0-9]+; [0-9]+\]|(len|count|held|checkpoints|variables): (u8|u16|usize),'
echo "== 7 a switch on which step to run"
list '(lower|keep|every|first|by): (bool|Separator)|dyn |impl Fn|: Fn'
echo "== 8 lines of proofs"
find crates/*/proofs crates/*/specs -name '*.antt' | xargs cat | wc -l
