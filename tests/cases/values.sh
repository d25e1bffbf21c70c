# Lines of the shell with what they come to, worked out by hand from the rules of evaluation. The first block that is given lies at
# 0x15e20, which is 89632, and each has 16 bytes or a multiple of that.

shows 'sums, products and quotients'
rows <<'ROWS'
1+2 => 3
0xffffffff+2 => 1
2-3 => -1
0-0x80000000 => -2147483648
-0x80000000 => -2147483648
- -5 => 5
!0 => 1
!7 => 0
~0 => -1
~5 => -6
3*4 => 12
0x10000*0x10000 => 0
0x7fffffff*2 => -2
-3*4 => -12
7/2 => 3
-7/2 => -3
7/-2 => -3
-7/-2 => 3
0x80000000/-1 => -2147483648
0x80000000/1 => -2147483648
7%2 => 1
-7%2 => -1
7%-2 => 1
-7%-2 => -1
0x80000000%-1 => 0
1/0 => divide by zero
1%0 => divide by zero
2*(3+4)-5/2%2 => 14
ROWS

shows 'comparisons, shifts and bits'
rows <<'ROWS'
1<2 => 1
2<1 => 0
1<1 => 0
-1<0 => 1
0x80000000<0x7fffffff => 1
1<=1 => 1
2<=1 => 0
1>2 => 0
0>-1 => 1
3>=3 => 1
-4>=-3 => 0
0xffffffff==-1 => 1
1==2 => 0
1!=2 => 1
2!=2 => 0
1<<31 => -2147483648
1<<32 => 1
1<<33 => 2
3<<31 => -2147483648
1<<-1 => -2147483648
-8>>1 => -4
-1>>31 => -1
0x80000000>>32 => -2147483648
0x7fffffff>>30 => 1
8>>35 => 1
6&3 => 2
6|3 => 7
6^3 => 5
-1&0xff => 255
ROWS

shows 'the left side may decide'
rows <<'ROWS'
0&&nosuch => 0
1||nosuch => 1
5&&7 => 1
5&&0 => 0
0||0 => 0
0||9 => 1
1&&nosuch => undefined symbol: nosuch
0||nosuch => undefined symbol: nosuch
0&&printf("a\n") => 0
1&&printf("a\n") => a | 1
printf("a\n")||printf("b\n") => a | 1
0&&1||1 => 1
1||0&&0 => 1
e = 0 && 1/0 => new symbol "e" added to symbol table. | 0
ROWS

# `d` is data at 0x2000, `b` bss at 0x2010, `k` absolute, and `far` data at the end of RAM; the gate of `taskIdSelf` is 0x010000f0.
shows 'names and addresses'
of_board_1
rows <<'ROWS'
symAdd 0, "d", 0x2000, 2; symAdd 0, "b", 0x2010, 3; symAdd 0, "k", 40, 4; symAdd 0, "far", 0x1000000, 2 => 0 | 0 | 0 | 0
*0x2000 = 7 => 7
d => 7
d+1 => 8
&d => 8192
*&d => 7
b => 0
&b => 8208
k => 40
k+2 => 42
&k => 40
taskIdSelf+0 => 16777456
&taskIdSelf => 16777456
far => access fault at 0x01000000
&far => 16777216
nosuch => undefined symbol: nosuch
&nosuch => undefined symbol: nosuch
*0xfffffc => 0
*0xfffffd => access fault at 0x00fffffd
*-1 => access fault at 0xffffffff
*0x2001 => 1792
symAdd 0, "d", 0x2010, 2; *0x2010 = 5 => 0 | 5
d => 5
ROWS

shows 'assignments to known places'
of_board_1
rows <<'ROWS'
symAdd 0, "d", 0x2000, 2; symAdd 0, "b", 0x2010, 3; symAdd 0, "k", 40, 4; symAdd 0, "far", 0x1000000, 2 => 0 | 0 | 0 | 0
d = 7 => 7
d += 3 => 10
d -= 4 => 6
d *= 5 => 30
d /= 4 => 7
d %= 4 => 3
d |= 8 => 11
d &= 9 => 9
d ^= 1 => 8
d <<= 2 => 32
d >>= 3 => 4
d /= 0 => divide by zero
d => 4
d = b = 9 => 9
d == b => 1
*0x2000 = 5 => 5
*(0x1ff0+16) += 2 => 7
d => 7
*0x2000 = *0x2000 + *0x2000 => 14
d += d = 3 => 17
d => 17
*(d = 16) = d => 16
*16 => 16
taskIdSelf = nosuch => access fault at 0x010000f0
taskIdSelf += nosuch => access fault at 0x010000f0
k = nosuch => access fault at 0x00000028
far = nosuch => undefined symbol: nosuch
far = 1 => access fault at 0x01000000
far += nosuch => access fault at 0x01000000
*0x1000000 = nosuch => undefined symbol: nosuch
*0x1000000 += nosuch => access fault at 0x01000000
*nosuch = 1/0 => undefined symbol: nosuch
d = 1/0 => divide by zero
d => 16
ROWS

shows 'new variables, each with a block of zeros'
rows <<'ROWS'
nosuch += 1/0 => undefined symbol: nosuch
x = 1/0 => divide by zero
x => undefined symbol: x
*0x15e20 = -1; *0x15e2c = -1 => -1 | -1
x = 3 => new symbol "x" added to symbol table. | 3
*0x15e2c => 0
&x => 89632
x => 3
x += x => 6
y = z = 2 => new symbol "z" added to symbol table. | new symbol "y" added to symbol table. | 2
&z => 89648
&y => 89664
w = (w = 5) + 1 => new symbol "w" added to symbol table. | new symbol "w" added to symbol table. | 6
&w => 89696
*0x15e50 => 5
w => 6
v = 1 + (v = 4) / 0 => new symbol "v" added to symbol table. | divide by zero
v => 4
u = u => undefined symbol: u
ROWS

# `li r3, 100` and `blr` at 0x1000, and `mr r3, r4` and `blr` at 0x1010.
shows 'calls'
rows <<'ROWS'
*0x1000 = 0x38600064; *0x1004 = 0x4e800020 => 945815652 | 1317011488
*0x1010 = 0x7c832378; *0x1014 = 0x4e800020 => 2088969080 | 1317011488
symAdd 0, "f", 0x1000, 1; symAdd 0, "g", 0x1010, 1 => 0 | 0
f => 100
f() + 1 => 101
g(1,2,3) => 2
g 1, 2 => 2
g(f(1), f() + 7) => 107
f(1) - g(2, 5) * 2 => 90
printf("a\n") - printf("bc\n") * 2 => a | bc | -4
(0x1010)(5, 6) => 6
(&g)(5, 6) => 6
nosuch(1/0) => undefined symbol: nosuch
nosuch(printf("a\n")) => undefined symbol: nosuch
f(1/0) => divide by zero
e = 0 => new symbol "e" added to symbol table. | 0
printf("%d %d %d.\n", e = 3, e, e += 1) => 3 3 4. | 7
e = f(3) => 100
e => 100
*(f(0)-84) = 5 => 5
*16 => 5
e += f(1) => 200
x = f() => new symbol "x" added to symbol table. | 100
f(f(f(1))) => 100
1/0 + printf("a\n") => divide by zero
printf("a\n") / 0 => a | divide by zero
ROWS

shows 'strings, each with a block of its own'
rows <<'ROWS'
*0x15e20 = -1; *0x15e24 = -1 => -1 | -1
"abc" => 89632
*0x15e20 => 1633837824
*0x15e24 => -1
"" => 89648
printf("%s.\n", "hi") => hi. | 4
*0x15e50 => 1751711744
"0123456789abcdef" => 89696
"z" => 89728
ROWS

# A block of all the pool but its last 16 bytes, which lie at 0xfffff0: 0x1000000 - 0x15e20 - 16 = 0xfea1d0.
shows 'no room for a string or a variable'
of_board_1
rows <<'ROWS'
malloc 0xfea1d0 => 89632
"0123456789abcdef" => not enough memory
"0123456789abcde" => 16777200
"" => not enough memory
n = 1 => not enough memory
n => undefined symbol: n
printf("" + nosuch) => not enough memory
ld < a.o => not enough memory
free 0x15e20 => 0
n = 1 => new symbol "n" added to symbol table. | 1
ROWS

# `mr r3, r5` and `blr` at 0x1000: the third word of a call.
shows 'a file to load is the third word of a call of ld'
rows <<'ROWS'
*0x1000 = 0x7ca32b78; *0x1004 = 0x4e800020 => 2091068280 | 1317011488
symAdd 0, "ld", 0x1000, 1 => 0
ld < a.o => 89648
*0x15e30 => 1630433024
ld(1, 2, 3) => 3
ROWS

# `mtctr r3`, `li r6, 4`, that often `li r3, 0`, a call of symAdd and `bdnz`, and back to the shell. There are 55 symbols at the start:
# with 65,480 more there is room for one.
shows 'a full table of symbols'
of_board_1
rows <<'ROWS'
*0x1000 = 0x7c6903a6; *0x1004 = 0x38c00004; *0x1008 = 0x38600000; *0x100c = 0x490002a3 => 2087256998 | 952107012 | 945815552 | 1224737443
*0x1010 = 0x4200fff8; *0x1014 = 0x49000012 => 1107361784 | 1224736786
(0x1000)(65480, "s", 7) => 0
s => 7
x = 1 => new symbol "x" added to symbol table. | 1
y = 1/0 => divide by zero
y = 1 => symbol table full
y => undefined symbol: y
x = 2 => 2
symAdd 0, "t", 1, 4 => -1
errnoGet => 1835009
"abc" => 89680
ROWS
