#!/usr/bin/env bash
# Lists the lines of src/ where the places of the design pass are looked for, point by point; `-c` prints only how many.
set -u
cd "$(dirname "$0")/.."
look() { # NAME PATTERN [PATTERN TO LEAVE OUT]
    local found
    found=$(grep -rnE "$2" crates/*/src | grep -vE '^[^:]*:[0-9]+: *//' | grep -vE "${3:-^$}")
    printf '%s: %s\n' "$1" "$(printf '%s' "$found" | grep -c .)"
    [ "$mode" = -c ] || printf '%s\n' "$found"
}
mode=${1:-}
look '1a own enums, and numbers as errors' '\benum [A-Z]|Result<[^,]*, (u8|u16|u32|u64|usize|i64)>'
look '1b arms that hand an Option or a Result on' 'None => (None|return Err|Err|Ok|Move|Self)|Some\([a-z]+\) => (Some|Ok|Err|Word|Move)|Err\([a-z_]+\) => (Err|None|return Err)'
look '2a types and traits' '^ *(pub(\(crate\))? )?(struct|enum|trait) '
look '2b impls of a trait' '^impl.* for '
look '2c functions whose name stands in several places' "fn ($(grep -rhoE 'fn [a-z_0-9]+\(' crates/*/src | sed -E 's/fn (.*)\(/\1/' | sort | uniq -d | paste -sd'|'))\("
look '3a loops' '^ *for .* in |^ *while |^ *loop '
look '3b counts and indices by hand' 'saturating_add\(1\)|\+= 1|\bi \+ 1|place \+ 1|number - 1'
look '4a printing' 'println|print!|format!|write!'
look '4b conversions' '(fn|::)(from_chain|residue_of|new|to)\(|Word \{ value'
look '4c comparisons of fields' '\.(value|number|steps)(\(\))? ==|\] ==|\]\.value =='
look '5a requires' '^ *requires'
look '5b parameters that travel together' 'slots: \[Option<Adder>; 8\], (output|source)|adders: &\[Adder\], (shift|source)|number\(\)|place\(\)'
look '6 arrays, and lengths beside them' '\[[A-Za-z]+(<[A-Za-z]+>)?; *[0-9A-Z]+\]|(len|count): usize|\(X(, X)+\)'
look '7 steps chosen by a switch, and functions as values' '\bdyn\b|\bfn\(|Fn(Once|Mut)?\(|match [a-z.]*sign|match row|match \(self, symbol\)|told\($|told\('
