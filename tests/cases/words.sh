# Words of the command line, in right forms and in wrong ones.

help="Plays a session of a wind kernel's shell on a modelled board

Usage: windplay [OPTIONS]

Options:
      --console <FILE>  The console file: the lines for the shell [default: console.txt]
      --ticks <FILE>    The tick file: when ticks, bytes and interrupts come [default: ticks.txt]
      --limit <N>       The most steps to make, up to 1000000000000 [default: 1000000]
      --generate <N>    Plays N generated rounds (a sum, a mutex, a delay), up to 10000, in place of the files, and sums them up in one line; 0 plays the files [default: 0]
      --modules <DIR>   The folder of the modules that ld loads [default: .]
      --profile <N>     An inherited priority lasts until its owner gives back all mutexes (1), or until its cause stops waiting (2) [default: 1]
      --board <N>       The board: with 16 MiB of RAM (1) or 64 MiB (2) [default: 1]
  -h, --help            Print help
"

shows 'no word: the defaults'
plays
ends 0 "$output" ''

shows 'a last -- is taken'
plays --
ends 0 "$output" ''

shows 'a last -- after an option is taken'
plays --limit 5 --
ends 3 "$output" 'windplay: limit of 5 steps reached\n'

shows 'a value as the next word'
file c '7\n'
plays --console c
ends 0 '-> 7\nvalue = 7 = 0x7\n-> ' ''

shows 'a value after ='
file c '7\n'
plays --console=c
ends 0 '-> 7\nvalue = 7 = 0x7\n-> ' ''

shows 'a value that begins with a dash, after ='
file -c '7\n'
plays --console=-c
ends 0 '-> 7\nvalue = 7 = 0x7\n-> ' ''

shows 'a lone dash as a value'
file - '7\n'
plays --console -
ends 0 '-> 7\nvalue = 7 = 0x7\n-> ' ''

shows 'a value with = after ='
file 'a=b' '7\n'
plays --console=a=b
ends 0 '-> 7\nvalue = 7 = 0x7\n-> ' ''

shows 'a value with blanks and letters of two bytes, in a folder'
mkdir "$work/session/sub"
file "sub/$(printf 'a \303\244')" '7\n'
plays --console "$(printf 'sub/a \303\244')"
ends 0 '-> 7\nvalue = 7 = 0x7\n-> ' ''

shows 'all options, in another order'
file c '7\n'
file t 'every 5 3\ntick 7\r\n'
without console.txt
without ticks.txt
plays --limit=14 --ticks t --modules=m --console c --
ends 0 '-> 7\nvalue = 7 = 0x7\n-> ' ''

shows 'a folder of modules that is not there has no effect'
plays --modules no/such
ends 0 "$output" ''

shows 'an empty name is that of a file that is not there'
plays --console=
ends 2 '' 'windplay: : not found\n'

shows 'an empty name as a word of its own'
plays --ticks ''
ends 2 '' 'windplay: : not found\n'

shows 'a name that begins with a dash, of a file that is not there'
plays --console=-x
ends 2 '' 'windplay: -x: not found\n'

shows 'help'
plays --help
ends 1 '' "$help"

shows 'help by its short name'
plays -h
ends 1 '' "$help"

shows 'help after a right option'
plays --limit 5 -h
ends 1 '' "$help"

shows 'help comes before an invalid limit, and before files'
without console.txt
plays --limit x --help
ends 1 '' "$help"

shows 'help tells the name that the program was called by'
ln -sf "$program" "$work/other"
status=0
(cd "$work/session" && exec "$work/other" --help) >"$work/stdout" 2>"$work/stderr" || status=$?
ends 1 '' "$(printf '%s' "$help" | sed 's/^Usage: windplay/Usage: other/')\n"

shows 'a refusal tells its usage'
plays --limit 5 --limit=6
ends 1 '' "error: the argument '--limit <N>' cannot be used multiple times

Usage: windplay [OPTIONS]

For more information, try '--help'.
"

shows 'a refused limit tells its usage'
plays --limit x
ends 1 '' "error: '--limit <N>' takes 1 to 13 digits, and at most 1000000000000

Usage: windplay [OPTIONS]

For more information, try '--help'.
"

# Words that are no option, alone and after words that are right.
for word in x help -c -V -1 - '' --version --lim --Limit; do
    shows "the word '$word' is refused"
    plays "$word"
    refuses "unexpected argument '$word' found"

    shows "the word '$word' is refused after a right option"
    plays --modules . "$word"
    refuses "unexpected argument '$word' found"
done

shows 'a name after one dash is refused by its first letter'
plays -limit 5
refuses "unexpected argument '-l' found"

shows 'a word after -- is refused'
plays -- x
refuses "unexpected argument 'x' found"

shows 'an option after -- is refused'
plays -- --limit
refuses "unexpected argument '--limit' found"

shows 'a stray word is refused before a file that is not there'
without console.txt
plays x
refuses "unexpected argument 'x' found"

# The last word is an option without its value, or another option stands in its place.
for option in '--console <FILE>' '--ticks <FILE>' '--modules <DIR>' '--limit <N>' '--generate <N>' '--profile <N>' '--board <N>'; do
    long=${option% *}
    shows "$long without a value is refused"
    plays "$long"
    refuses "a value is required for '$option' but none was supplied"

    shows "$long with an option in place of its value is refused"
    plays "$long" --help
    refuses "a value is required for '$option' but none was supplied"

    shows "$long with a value that begins with a dash, as a word of its own, is refused"
    plays "$long" -1
    refuses "unexpected argument '-1' found"

    shows "$long twice is refused"
    plays "$long" 5 "$long=6"
    refuses "the argument '$option' cannot be used multiple times"

    shows "$long twice with the same value is refused"
    plays "$long=5" "$long=5"
    refuses "the argument '$option' cannot be used multiple times"
done

shows 'a value for help is refused'
plays --help=1
refuses "unexpected value '1' for '--help' found; no more were expected"

# Invalid limits: no digit, a sign, another radix, a blank, a letter; more than the most; more than 13 digits.
for limit in '' -1 +1 0x10 ' 1' '1 ' 1_000 1e3 x 5x 1000000000001 9999999999999 00000000000005 10000000000000; do
    shows "the limit '$limit' is refused"
    plays "--limit=$limit"
    refuses "'--limit <N>' takes 1 to 13 digits, and at most 1000000000000"
done

# Rules of inheritance are 1 and 2.
for profile in '' 0 3 -1 +1 0x1 x 10 00000000000001; do
    shows "the rule of inheritance '$profile' is refused"
    plays "--profile=$profile"
    refuses "'--profile <N>' takes 1 or 2"
done

# Kinds of boards are 1 and 2.
for kind in '' 0 3 -1 +1 0x1 x 10 00000000000001; do
    shows "the kind of board '$kind' is refused"
    of_board_1
    plays "--board=$kind"
    refuses "'--board <N>' takes 1 or 2"
done

shows 'an invalid limit is refused before a file that is not there'
without console.txt
plays --limit 1000000000001
refuses "'--limit <N>' takes 1 to 13 digits, and at most 1000000000000"

# The session makes five steps.
for limit in 5 05 0000000000005; do
    shows "a limit of as many steps as the session makes, written $limit"
    plays --limit "$limit"
    ends 3 "$output" 'windplay: limit of 5 steps reached\n'
done

for limit in 6 0000000000006 1000000000000; do
    shows "a limit of $limit is not reached"
    plays --limit "$limit"
    ends 0 "$output" ''
done

shows 'a limit of none'
plays --limit 0
ends 3 '' 'windplay: limit of 0 steps reached\n'

shows 'a limit ahead of the last prompt'
plays --limit=4
ends 3 '-> 1+2\nvalue = 3 = 0x3\n' 'windplay: limit of 4 steps reached\n'

# An instruction that branches to itself.
shows 'the limit by default is 1,000,000'
console '*0x1000 = 0x48000000\n(0x1000)()\n'
plays
ends 3 '-> *0x1000 = 0x48000000\nvalue = 1207959552 = 0x48000000\n-> (0x1000)()\n' \
    'windplay: limit of 1000000 steps reached\n'

# Which word it was, the text need not tell.
for option in '' --console= --limit=; do
    shows "a word that is no text is refused, after '$option'"
    plays "$option$(printf '\377')"
    refuses "unexpected argument '(arguments that are no text)' found"
done
