# Files that are not there, that cannot be read, that have one byte too many, and the order in which they are refused.

bad_ticks='tick 5\n# a\ntock 3\n'

shows 'no console file'
without console.txt
plays
ends 2 '' 'windplay: console.txt: not found\n'

shows 'no console file of the name that the words give'
plays --console c
ends 2 '' 'windplay: c: not found\n'

shows 'no tick file'
without ticks.txt
plays
ends 2 '' 'windplay: ticks.txt: not found\n'

shows 'no tick file of the name that the words give'
plays --ticks 'a t'
ends 2 '' 'windplay: a t: not found\n'

shows 'a path through a file is that of a missing file'
plays --console ticks.txt/console
ends 2 '' 'windplay: ticks.txt/console: not found\n'

shows 'neither file: the console file is told'
without console.txt
without ticks.txt
plays
ends 2 '' 'windplay: console.txt: not found\n'

shows 'no console file comes before a bad tick file'
without console.txt
ticks "$bad_ticks"
plays
ends 2 '' 'windplay: console.txt: not found\n'

shows 'a folder as the console file cannot be read'
plays --console .
ends 4 '' 'windplay: reading failed\n'

shows 'a folder as the tick file cannot be read'
plays --ticks .
ends 4 '' 'windplay: reading failed\n'

shows 'a console file that cannot be read comes before a tick file that is not there'
without ticks.txt
plays --console .
ends 4 '' 'windplay: reading failed\n'

shows 'a console file that is not there comes before a tick file that cannot be read'
plays --console c --ticks .
ends 2 '' 'windplay: c: not found\n'

# It opens, and its first byte cannot be read.
if [ -r /proc/self/mem ]; then
    shows 'a console file in which reading fails'
    plays --console /proc/self/mem
    ends 4 '' 'windplay: reading failed\n'
fi

shows 'a console file of one byte too many'
blanks console.txt 1048577
plays
ends 8 '' 'windplay: console.txt: too long\n'

shows 'a tick file of one byte too many'
blanks t 1048577
plays --ticks t
ends 8 '' 'windplay: t: too long\n'

shows 'a console file that is too long comes before a bad tick file'
blanks console.txt 1048577
ticks "$bad_ticks"
plays
ends 8 '' 'windplay: console.txt: too long\n'

shows 'a console file that is too long comes before a tick file that is not there'
blanks console.txt 1048577
without ticks.txt
plays
ends 8 '' 'windplay: console.txt: too long\n'

# A line keeps 255 bytes of all these blanks; its end is supplied.
shows 'both files of 1 MiB are taken'
blanks console.txt 1048576
blanks ticks.txt 1048576
plays
ends 0 "-> $(printf '%255s' '')\n-> " ''

shows 'an empty console'
console ''
plays
ends 0 '-> ' ''

shows 'an empty console and an empty tick file of the host'
plays --console /dev/null --ticks /dev/null
ends 0 '-> ' ''

shows 'one file as the console and as the tick file'
console '#\n'
plays --ticks console.txt
ends 0 '-> #\nsyntax error at column 1\n-> ' ''

shows 'a console as the tick file'
plays --ticks console.txt
ends 7 '' 'windplay: console.txt: line 1 is not understood\n'

shows 'a bad tick file is refused before the console is played'
console '1+2\n=\n'
ticks "$bad_ticks"
plays
ends 7 '' 'windplay: ticks.txt: line 3 is not understood\n'

shows 'the first bad line is told'
file t 'tock 3\ntick 5\ntock 3\n'
plays --ticks t
ends 7 '' 'windplay: t: line 1 is not understood\n'

shows 'a bad last line without its end'
ticks 'tick 5\n\n\n\n\n\n\n\n\nx'
plays
ends 7 '' 'windplay: ticks.txt: line 10 is not understood\n'

# Each of these is the second line.
for line in tick 'tick ' ' tick 1' 'tick 1 ' 'tick 1\t' 'tick 00000000001' 'tick 4294967296' 'tick 1 2' 'tick -1' \
    'tick +1' 'tick 1x' 'tick x' 'tick1' 'Tick 1' 'tick 1\r\r' ' # x' 'every 1' 'every 0 1' 'every 1 0' 'every 1 1 1' \
    'rx 1' 'rx 1 0' 'rx 1 4097' 'rx 1 1 1' 'irq 1' '\0377' ' \v' ' \0000'; do
    shows "the tick line '$line' is refused"
    ticks "tick 1\n$line\ntick 2\n"
    plays
    ends 7 '' 'windplay: ticks.txt: line 2 is not understood\n'
done

shows 'a lone 0x0D ends no line of a tick file'
ticks '#\ntick 1\rtick 2\n'
plays
ends 7 '' 'windplay: ticks.txt: line 2 is not understood\n'

shows 'a 0x0D at the end of a tick file is part of its line'
ticks '#\ntick 1\r'
plays
ends 7 '' 'windplay: ticks.txt: line 2 is not understood\n'

shows 'each form of a line of a tick file'
ticks 'tick 0000000007\n\n \t\n#\0377 #\n#\nevery\t1 \t 1\r\ntick 4294967295\n\r\nrx  0 4\n   '
plays
ends 0 '1+2\n-> value = 3 = 0x3\n-> ' ''
