#!/bin/sh
# Finds the places of each point of docs/DESIGN-PASS.md in the sources, as they are or at a commit, by their text.
#   sh tools/places.sh [COMMIT]         prints how many lines each pattern finds
#   sh tools/places.sh -l [COMMIT]      prints the lines too
set -eu
cd "$(dirname "$0")/.."
list=no
if [ "${1:-}" = -l ]; then
    list=yes
    shift
fi
commit=${1:-}
all=':(glob)crates/*/src/**/*.rt'

# lines PATTERN: where it stands
lines() {
    git grep -nE -e "$1" $commit -- "$all" | sed "s/^$commit://" || true
}

# say NAME WHAT LINES: how many they are
say() {
    printf '%s %-80s %s\n' "$1" "$2" "$(printf '%s' "$3" | grep -c . || true)"
    if [ "$list" = yes ] && [ -n "$3" ]; then
        printf '%s\n' "$3" | sed 's/^/      /'
    fi
}

# places NAME WHAT PATTERN: in code, and not in contracts, imports and comments
places() {
    say "$1" "$2" "$(lines "$3" | grep -vE ':\s*(requires|ensures|ghost use|use|//)' || true)"
}

# clauses NAME WHAT PATTERN: in contracts
clauses() {
    say "$1" "$2" "$(lines "$3")"
}

places 1a 'an answer is passed on by hand' 'Err\(\w+\) => (return )?Err\(|return Err\((refusal|e)\)|=> Some\(refusal\)|Ok\(\w+\) => Ok\('
places 1b 'an Option is rebuilt by hand' 'Some\(\w+\) => Some\(|None => (return )?None'
places 1c 'a number stands for none' '\bNONE\b'
places 1d 'a refusal that is an Option, or a want of memory made a refusal by hand' '-> Option<(Refusal|Part)>|return Err\(Refusal::Memory\)'
places 1e 'a case of an enum is a number' 'fn (side_byte|tie_byte|side|tie|encode|decode|number|place)\((self|byte|code|side|tie)\b[^)]*\) ->|^\s*pub sort: u8'
places 1f 'a pair, or an Option in an Option, is answered' '-> \((bool|usize|u16|HalfCents|Closed|Session|u8)[^)]*\)|Option<\(?Option'
places 2a 'a name that ends in its width' 'fn \w+_u(16|32)\('
places 2b 'a name of the buyers, and one of the sellers' 'fn (buyers|sellers|buyer|seller)_|fn (take|add)_(money|berth)|fn (put_in|take_from)\('
places 2c 'the same function by value and by reference' 'fn (take|hear|take_all|hear_all|ranks|first_ranks)\('
places 2d 'kinds, members or a word read from bytes' 'fn (kinds|members|word|number|put|cut|split|front)\((bytes|sheet|letter|list)'
places 2e 'an index, a book or a generator of numbers' 'struct (Index|Book|Dice|Roots|Pair)\b'
places 2f 'a range of kinds or members' '_MOST: (u8|u16|usize)|(64|2000) <|< (1|64|2000) '
places 3a 'while' '^\s*(while|loop) '
places 3b 'for over numbers' "^\s*('\w+: )?for \w+ in .*\.\."
places 3c 'a counter beside a loop' '\w+ \+= 1;|\w+ = \w+\.wrapping_add\(1\)'
places 4a 'money is taken out of its type to be compared' '\.0 (==|<|>|<=|>=) \w|(==|<|>|<=|>=) \w+(\.\w+)*\.0\b|let (Half)?Cents\(\w+\) ='
places 4b 'equality, order or conversion by hand' 'fn (same_price|is_better|half_cents\(self|key\(|unkey)|impl From'
places 4c 'a refusal is printed by hand' 'refused \{\} at \{\}'
places 5a 'kinds and members travel together' 'kinds: (u8|usize),.*members: (u16|usize)|^\s*(pub )?kinds: (u8|usize),$'
places 5b 'nodes and keys travel together' 'keys: &(mut )?\[Cents\]'
places 5c 'a sheet and the lists travel together' 'sellers: &mut \[Ranked\]'
places 5d 'the parts of a kind on the sheet travel together' 'outcome: Outcome,'
clauses 5e 'a contract asks that the lent memory fits' 'requires.*\bFits '
places 6a 'a length beside a buffer, or rows side by side' 'count: usize,|keys: (Vec<Cents>|\[u64; WIDTH\])|lows: Vec<u64>'
places 6b 'nodes in an arena' 'nodes: Vec<Node>'
places 7a 'a step or a function is picked by a number or a table' '\bfn\(|dyn |step: u|match (step|state|phase)\b'
