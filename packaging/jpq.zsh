#compdef jpq
# Completions of jpq for zsh.
_arguments -s -S \
    '(-v --values -r --raw -l --locations -p --pointers -j --json --tsv --csv -c --count -q --quiet)'{-v,--values}'[Print values alone]' \
    '(-v --values -r --raw -l --locations -p --pointers -j --json --tsv --csv -c --count -q --quiet)'{-r,--raw}'[Print values alone, and strings without quotes]' \
    '(-v --values -r --raw -l --locations -p --pointers -j --json --tsv --csv -c --count -q --quiet)'{-l,--locations}'[Print normalised paths alone]' \
    '(-v --values -r --raw -l --locations -p --pointers -j --json --tsv --csv -c --count -q --quiet)'{-p,--pointers}'[Print JSON pointers (RFC 6901) alone]' \
    '(-v --values -r --raw -l --locations -p --pointers -j --json --tsv --csv -c --count -q --quiet)'{-j,--json}'[Print a JSON array for each document, of objects with a path and a value]' \
    '(-v --values -r --raw -l --locations -p --pointers -j --json --tsv --csv -c --count -q --quiet)--tsv[Print a row for each document: the first node of each path, and tabs between]' \
    '(-v --values -r --raw -l --locations -p --pointers -j --json --tsv --csv -c --count -q --quiet)--csv[Print such a row with commas between]' \
    '(-v --values -r --raw -l --locations -p --pointers -j --json --tsv --csv -c --count -q --quiet)'{-c,--count}'[Print how many nodes are selected]' \
    '(-v --values -r --raw -l --locations -p --pointers -j --json --tsv --csv -c --count -q --quiet)'{-q,--quiet}'[Print nothing]' \
    '(--header)--header[With --tsv or --csv, print the paths as the first row]' \
    '(--pretty)--pretty[Indent values by two spaces a level]' \
    '(--indent)--indent=[Indent values by N spaces a level, from 0 to 16]:N: ' \
    '(--tab)--tab[Indent values by a tab a level]' \
    '(--ascii)--ascii[Escape characters above U+007F in JSON and in normalised paths]' \
    '(-0 --null)'{-0,--null}'[End lines by a NUL in place of a line feed]' \
    '(-n --max)'{-n+,--max=}'[Print at most N nodes of a document for each path]:N: ' \
    '(-m --max-all)'{-m+,--max-all=}'[Print at most N nodes of all documents]:N: ' \
    '(--total)--total[With --count, print the sum of all counts alone]' \
    '(-u --unique)'{-u,--unique}'[Print each location once]' \
    '(-L --lines)'{-L,--lines}'[Read each line as a document (NDJSON)]' \
    '(--line-number)--line-number[With --lines, print the number of the line before what is printed of it]' \
    '(--with-filename)--with-filename[Print the file'\''s name before what is printed of it, also of one file]' \
    '(--no-filename)--no-filename[Print no file'\''s name, also with several files]' \
    '(--no-path-number)--no-path-number[Print no path'\''s number, also with several paths]' \
    '(--strict)--strict[With --lines, stop at a line that is not JSON]' \
    '(--check)--check[Read no document, and print each path in its canonical form]' \
    '(--whole-numbers)--whole-numbers[Let a number that is not held as an integer equal nothing]' \
    '(-s --silent)'{-s,--silent}'[Give no hints]' \
    '(--color)--color=[When to use colours]:WHEN:(auto always never)' \
    '(1)*'{-e+,--expression=}'[Select by this path; may be used several times]:PATH: ' \
    '(1)*'{-f+,--from-file=}'[Select by the paths of a file, one on each line; '\''#'\'' begins a comment]:FILE:_files' \
    '*--let=[Let the text '\''$NAME'\'' in a filter stand for VALUE; may be used several times]:NAME=VALUE: ' \
    '(- *)'{-h,--help}'[Print help]' \
    '(- *)'{-V,--version}'[Print version]' \
    '1:PATH:_guard "^-*" PATH' \
    '*:FILE:_files'
