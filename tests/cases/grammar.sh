# Lines of the shell with what they come to, worked out by hand from the grammar of a line: if another reading of a line would
# come to the same, its numbers would be others.

# Writes a text a number of times.
repeat() {
    count=$2
    while [ "$count" -gt 0 ]; do
        printf '%s' "$1"
        count=$((count - 1))
    done
}

shows 'each operator binds tighter than those of the next level'
rows <<'ROWS'
2*3+4 => 10
4+2*3 => 10
8/2-1 => 3
9-8/2 => 5
7%4+3 => 6
9-7%4 => 6
1+2<<3 => 24
1<<2+3 => 32
9-1>>2 => 2
64>>4-2 => 16
1<<2<3 => 0
0<2>>1 => 1
8>>1>=3 => 1
1<=2<<3 => 1
2>8>>3 => 1
1<2==1 => 1
1==3>=2 => 1
3>2!=1 => 0
1!=2<=3 => 0
2==3&2 => 0
2&2!=3 => 0
1&2^3 => 3
1^3&2 => 3
1^2|1 => 3
1|2^3 => 1
1|2&&0 => 0
0&&2|1 => 0
0&&1||1 => 1
1||1&&0 => 1
ROWS

shows 'each level associates to the left'
rows <<'ROWS'
7*5%4 => 3
100/10*2 => 20
65%24/4 => 4
9-4+2 => 7
9-4-2 => 3
1<<3>>1 => 4
64>>2>>1 => 8
3>2>1 => 0
0<2<=1 => 1
5>=3>=1 => 1
2==2!=0 => 1
3!=2==0 => 0
1-2*3-4 => -9
ROWS

shows 'parentheses leave no mark'
rows <<'ROWS'
(1+2)*3 => 9
2*(3+4) => 14
9-(4-2) => 7
((7)) => 7
(taskIdSelf) => 1
(taskIdSelf)() => 1
((taskIdSelf)()) => 1
(x=1)+2 => new symbol "x" added to symbol table. | 3
(x||0)+1 => 2
ROWS

# `lis r3, 0`, `ori r3, r3, 0x1000` and `blr`: a function whose value is its own address.
shows 'operators before an operand'
rows <<'ROWS'
-1 => -1
- -1 => 1
!~-1 => 1
-1*2 => -2
1*-2 => -2
1- -2 => 3
!2==1 => 0
~1+2 => 0
-7>>1 => -4
-(1+2) => -3
*0x2000 = 0x3000; *0x3000 = 7 => 12288 | 7
*0x2000 => 12288
**0x2000 => 7
*0x2000+4 => 12292
*0x2000**0x3000 => 86016
15&*0x3000 => 7
5&&0x3000 => 1
x = 5 => new symbol "x" added to symbol table. | 5
*&x => 5
&x&&0 => 0
x& &x => 0
~&taskIdSelf => -16777457
-taskIdSelf() => -1
*0x1000 = 0x3c600000; *0x1004 = 0x60631000; *0x1008 = 0x4e800020 => 1012924416 | 1617104896 | 1317011488
(0x1000)() => 4096
*(0x1000)()+1 => 1012924417
(0x1000)()() => 4096
(*&x+4091)()() => 4096
ROWS

shows 'calls with parentheses'
rows <<'ROWS'
taskIdSelf() => 1
taskIdVerify(1) => 0
 printf ( "%d,%d\n" , 1 , 2 )  => 1,2 | 4
printf("%d,%d\n", taskIdSelf(), tickGet()) => 1,0 | 4
taskIdVerify((1)) => 0
printf("%d%c\n", x=3, 'b') => new symbol "x" added to symbol table. | 3b | 3
printf("%d%d%d%d%d%d%d%d%d.\n",1,2,3,4,5,6,7,8,9) => 123456789. | 11
taskIdSelf(taskIdSelf(1,2,3,4,5,6,7,8,9,10),2,3,4,5,6,7,8,9,10) => 1
taskIdSelf(1)+taskIdVerify(2) => 0
ROWS

# The gate of `taskIdVerify` is 0x01000100.
shows 'calls without parentheses'
rows <<'ROWS'
taskIdSelf => 1
taskIdVerify 1 => 0
printf "%d,%d\n", 1, 2 => 1,2 | 4
x = 1 => new symbol "x" added to symbol table. | 1
taskIdVerify x => 0
taskIdVerify taskIdSelf(9) => 0
taskIdVerify 'a' => -1
taskIdVerify !0 => 0
taskIdVerify ~-2 => 0
printf "%d %d %d %d\n", 1+2, -2, *&x, x=9 => 3 -2 1 9 | 9
taskIdVerify x=1 => 0
taskIdSelf 1,2,3,4,5,6,7,8,9,10 => 1
taskIdVerify -1 => 16777471
x = 0x101 => 257
taskIdVerify &x => 256
taskIdVerify *x => 16843008
taskIdVerify (1) => 0
taskIdVerify + 1 => 16777473
ROWS

shows 'assignments'
rows <<'ROWS'
x=1 => new symbol "x" added to symbol table. | 1
y = 5 => new symbol "y" added to symbol table. | 5
x = y = 2 => 2
x+=3 => 5
x-=1 => 4
x*=9 => 36
x/=2 => 18
x%=7 => 4
x|=9 => 13
x&=7 => 5
x^=4 => 1
x<<=4 => 16
x>>=2 => 4
x=-1 => -1
x=1||2 => 1
x==1 => 1
y => 2
*0x2000 = 0x3000 => 12288
*0x2000 -= y += 2 => 12284
y => 4
**0x2000=8 => 8
*0x2ffc => 8
x=-0x3000 => -12288
*-x=9 => 9
*0x3000 => 9
*&x=1 => 1
x => 1
*malloc(16)=2 => 2
*(x+0x2fff)=6 => 6
*0x3000 => 6
*"abc"=0x7f => 127
x=*y=3 => 3
*4 => 3
ROWS

# `ld` has the gate 0x010002e0.
shows 'loads of files'
rows <<'ROWS'
ld < a.o => ld: a.o: not found | 0
ld<a.o => ld: a.o: not found | 0
ld < "a" => ld: "a": not found | 0
ld < a,b(1) => ld: a,b(1): not found | 0
ld <a;1 => ld: a: not found | 0 | 1
1;ld<a => 1 | ld: a: not found | 0
	ld	<	a.o  => ld: a.o: not found | 0
ld => -1
ld "a" => -1
ld(1, 0, "a") => ld: a: not found | 0
ld = 1 => access fault at 0x010002e0
ld <= 3 => 0
ld << 3 => 134223616
(ld)<3 => 0
x=ld<3 => new symbol "x" added to symbol table. | 0
lds < 3 => undefined symbol: lds
l < 3 => undefined symbol: l
ROWS

shows 'literals and names'
rows <<'ROWS'
0 => 0
00 => 0
017 => 15
0x1F => 31
0xaBc => 2748
4294967295 => -1
0xffffffff => -1
037777777777 => -1
0000000000000017 => 15
'a' => 97
' ' => 32
'"' => 34
'\n' => 10
'\t' => 9
'\r' => 13
'\0' => 0
'\\' => 92
'\'' => 39
'\"' => 34
"" => 89632
*"" => 0
*"a b;" => 1629512251
*"\n\t\r\\" => 168365404
*"\'\"'x" => 656549752
*"\0abc" => 6382179
_f9 = 1; x_1Y = 2 => new symbol "_f9" added to symbol table. | 1 | new symbol "x_1Y" added to symbol table. | 2
_f9 + x_1Y => 3
ROWS

shows 'statements of a line'
rows <<'ROWS'
 => nothing
 	 => nothing
; => nothing
1; => 1
1;2 => 1 | 2
taskIdVerify 1;printf "%d,%d\n", 2, 3;taskIdSelf => 0 | 2,3 | 4 | 1
x=1;;x => new symbol "x" added to symbol table. | 1 | 1
ROWS

shows 'tokens that no line holds'
rows <<'ROWS'
4294967296 => syntax error at column 1
0x100000000 => syntax error at column 1
040000000000 => syntax error at column 1
08 => syntax error at column 1
0x => syntax error at column 1
0xg => syntax error at column 1
0X1 => syntax error at column 1
1a => syntax error at column 1
1_ => syntax error at column 1
x + 09 => syntax error at column 5
'' => syntax error at column 1
''' => syntax error at column 1
'ab' => syntax error at column 1
'a => syntax error at column 1
' => syntax error at column 1
'\x' => syntax error at column 1
'\' => syntax error at column 1
"a => syntax error at column 1
"a\x" => syntax error at column 1
"a\" => syntax error at column 1
f "a => syntax error at column 3
1++2 => syntax error at column 2
x-- => syntax error at column 2
++x => syntax error at column 1
1?2 => syntax error at column 2
x[1] => syntax error at column 2
x.y => syntax error at column 2
@ => syntax error at column 1
1 # 2 => syntax error at column 3
1 + { => syntax error at column 5
é => syntax error at column 1
ROWS

shows 'tokens that do not stand where they are'
rows <<'ROWS'
1+ => syntax error at column 3
1+* => syntax error at column 4
 +1 => syntax error at column 2
1 2 => syntax error at column 3
1 x => syntax error at column 3
'a'b => syntax error at column 4
"a""b" => syntax error at column 4
1,2 => syntax error at column 2
) => syntax error at column 1
( => syntax error at column 2
() => syntax error at column 2
(1 => syntax error at column 3
1) => syntax error at column 2
1;2) => syntax error at column 4
(1;2) => syntax error at column 3
! => syntax error at column 2
! =1 => syntax error at column 3
* => syntax error at column 2
& => syntax error at column 2
&1 => syntax error at column 2
&(x) => syntax error at column 2
&&x => syntax error at column 1
x> >1 => syntax error at column 4
x< =1 => syntax error at column 4
1(2) => syntax error at column 2
"a"(1) => syntax error at column 4
&x(1) => syntax error at column 3
ROWS

shows 'calls that go wrong'
rows <<'ROWS'
f( => syntax error at column 3
f(1 => syntax error at column 4
f(1,) => syntax error at column 5
f(,1) => syntax error at column 3
f(1 2) => syntax error at column 5
f(1; => syntax error at column 4
f 1, => syntax error at column 5
f 1 2 => syntax error at column 5
f x y => syntax error at column 5
f 1) => syntax error at column 4
f (1), 2 => syntax error at column 6
f -1, 2 => syntax error at column 5
f 1,2,3,4,5,6,7,8,9,10,11 => syntax error at column 23
f(1,2,3,4,5,6,7,8,9,10,11) => syntax error at column 23
ROWS

shows 'left sides that are none, and loads without a file'
rows <<'ROWS'
1 = 2 => syntax error at column 3
=1 => syntax error at column 1
x= => syntax error at column 3
x+= => syntax error at column 4
x =+ 1 => syntax error at column 4
x+y=1 => syntax error at column 4
1+x=1 => syntax error at column 4
(x)=1 => syntax error at column 4
(*x)=1 => syntax error at column 5
f(1)=2 => syntax error at column 5
-x=1 => syntax error at column 3
!*x=1 => syntax error at column 4
&x=1 => syntax error at column 3
*x+1=2 => syntax error at column 5
x||=1 => syntax error at column 4
x&&=1 => syntax error at column 4
x === 1 => syntax error at column 5
f 1=2 => syntax error at column 4
ld < => syntax error at column 5
ld <   => syntax error at column 7
ld < ; => syntax error at column 6
ld <a b => syntax error at column 7
ld <a;;) => syntax error at column 8
ROWS

# The string has the first block.
shows 'lines of 255 bytes'
rows <<ROWS
"$(repeat "'" 253)" => 89632
$(repeat '(' 127)7$(repeat ')' 127) => 7
$(repeat '!' 254)1 => 1
$(repeat '1+' 127)1 => 128
x = 0 => new symbol "x" added to symbol table. | 0
$(repeat 'x=' 127)5 => 5
$(repeat 'ab' 127)a => undefined symbol: $(repeat 'ab' 127)a
ld<$(repeat a 252) => ld: $(repeat a 252): not found | 0
$(repeat ';' 255) => nothing
$(repeat '(' 255) => syntax error at column 256
$(repeat '!' 255) => syntax error at column 256
$(repeat '1*(' 85) => syntax error at column 256
$(repeat '1||(' 63)1|| => syntax error at column 256
$(repeat 'f(' 127)f => syntax error at column 256
$(repeat '*' 255) => syntax error at column 256
$(repeat 'x =' 85) => syntax error at column 256
$(repeat 'f(1,' 63)f(1 => syntax error at column 256
ROWS
