#!/bin/bash
# Counts the places that docs/DESIGN-PASS.md speaks of, in the sources of a checkout's crates.
# Run at the root of the checkout; with -l it lists them. A pattern finds candidates: the page says
# which of them are places.
list=$1
rows() { grep -rnE --include='*.rt' "$1" crates/*/src | grep -vE '^[^:]*:[0-9]+: *(//|ghost use|use )'; }
count() {
    printf '%-3s %4d  %s\n' "$1" "$(rows "$3" | wc -l)" "$2"
    [ "$list" = -l ] && rows "$3" | sed 's/^/        /'
}
count 1a 'cases that stand for a missing or failed value' '^ *(Misused|Refuses|Other|Reserved)(\(\w+\))?,$'
count 1b 'cases with a flag or a number beside a value'   '^ *[A-Z][a-z]+\((.*bool.*|u16, .*)\),$'
count 1c 'numbers of kinds and refusals by hand'           'fn number\(self'
count 2a 'functions of one shape, by their names'          'fn (clear_\w+|fifth_(name|type)|(types|processes|depth|run)_in_shape|slot_of|row_of|equal_row|no_(row|term|names)|name_list|payload|list|add_type|put|open_row|number\(self\) -> u16)\b|let none = Span'
count 3a 'for over a range of numbers'                     'for \w+ in \(?[a-z0-9]\w*\.\.'
count 3b 'while and loop'                                  '^ *(while |(.\w+: )?loop \{)'
count 3c 'for that writes through iter_mut'                'for \w+ in \w+\.iter_mut\(\)'
count 4a 'equality by hand: functions'                     'fn (is|same|same_four|is_text|is_mark|is_word|is_aopen)\('
count 4b 'equality by hand: calls'                         '\b(is_text|is_mark|is_word|same_four)\(|\.(is|same)\(|\.code\(\) == '
count 4c 'conversion and printing by hand'                 'fn (code|type_word|process_word)\(.*|format!\('
count 5a 'clauses of one fact'                             'ensures (same|lent|small|begun|kept|older|roomy|room|few) \{'
count 5b 'parameters that travel: the text'                '\btext: &\[u8\]'
count 5c 'parameters that travel: the declared types'      '\btypes: &(mut )?TypeWords'
count 5d 'parameters that travel: scheme and types'        's: &S, types: &|^ *types: &\[TypeRow\],'
count 6a 'buffers with a count beside'                     '^ *pub(\(crate\))? (count|typed|filled|used): u16,|let mut top'
count 6b 'tables lent as parallel slices'                  '^ *(types|processes|terms|places): &mut \['
count 6c 'lookups by hand with a default'                  'if \w+ < (\w+\.)+len\(\)( as \w+)? \{'
count 7a 'switches on which step to run'                   '\bfork: Fork'
count 7b 'function pointers and dyn'                       '\bdyn |: fn\('
