# The script `play`, in a folder with this program and one source, and an `rt` that runs this program as `rt try` does.

mkdir -p "$work/top/crates/windplay/out" "$work/top/crates/windplay/src" "$work/bin"
cp -R "$here/../play" "$here/../tools" "$work/top"
echo 'windplay:' >"$work/top/crates.txt"
touch -t 200001010000 "$work/top/crates.txt" "$work/top/crates/windplay/src/main.rt"
cp "$program" "$work/top/crates/windplay/out/windplay"
cat >"$work/bin/rt" <<RT
#!/bin/sh
[ "\$1" != version ] || { echo kit; exit; }
while [ "\$1" != -- ]; do shift; done
shift
cp "$program" "\$TMPDIR/program"
"\$TMPDIR/program" "\$@"
RT
chmod +x "$work/bin/rt"

# Runs `play` with these words, the first of which is the folder to run it in.
plays_in() {
    status=0
    (cd "$1" && shift && PATH=$work/bin:$PATH "$work/top/play" "$@") >"$work/stdout" 2>"$work/stderr" || status=$?
}

proved='play: crates/windplay/out/windplay, which ./build or .ci/run has left; no source is newer\n'
tried='play: without proof, some 1,000 to 2,000 times slower than the proved program (./build windplay)\n'
building='play: building it takes about a minute, once\n'

shows 'play plays a folder with the proved program'
plays_in "$work" session
ends 0 "$output" "$proved"

shows 'play plays the files of its words, and ends with the status of the program'
plays_in "$work" --console session/console.txt --ticks=session/ticks.txt --limit 3
ends 3 '-> 1+2\n' "${proved}windplay: limit of 3 steps reached\n"

shows 'play adds the words of a folder'
file words '--limit 3\n'
plays_in "$work/session" .
ends 3 '-> 1+2\n' "${proved}windplay: limit of 3 steps reached\n"

shows 'play takes the words of a record from its folder'
mkdir -p "$work/record/modules"
cp "$work/session/console.txt" "$work/session/ticks.txt" "$work/record"
printf '%s\n' --console=console.txt --ticks=ticks.txt --modules=modules --limit=3 >"$work/record/command.txt"
plays_in "$work" record
ends 3 '-> 1+2\n' "${proved}windplay: limit of 3 steps reached\n"

shows 'play without a word tells its usage'
plays_in "$work"
difference=
[ "$status" = 1 ] || differs "status $status, not 1"
compare stdout ''
grep -q '^usage: play FOLDER' "$work/stderr" || differs 'no usage'
tell

shows 'play tells what it is'
plays_in "$work" --version
ends 0 'windplay of no commit\nkit\nno proofs.log\n' ''

echo log >"$work/top/out.log"
mkdir -p "$work/top/out"
mv "$work/top/out.log" "$work/top/out/proofs.log"

shows 'play tells the digest of what the proofs printed'
plays_in "$work" --version
ends 0 "windplay of no commit\nkit\nproofs.log $(sha256sum <"$work/top/out/proofs.log" | cut -c 1-64)\n" ''

touch "$work/top/crates/windplay/src/main.rt"
touch -t 200101010000 "$work/top/crates/windplay/out/windplay"

shows 'play builds a program without its proof if a source is newer'
plays_in "$work" session
ends 0 "$output" "$tried$building"

shows 'play keeps what it built'
plays_in "$work/session" .
ends 0 "$output" "$tried"

shows 'play tells that a program without its proof is not proved'
plays_in "$work" --version
ends 0 "windplay of no commit\nkit\nwindplay isn't proved\n" ''

shows 'play ends with 1 if nothing can be built'
rm "$work/top/out/tried/windplay"
printf '#!/bin/sh\nexit 1\n' >"$work/bin/rt"
plays_in "$work" session
ends 1 '' "$tried${building}tried: windplay wasn't built; out/tried/windplay.log has all that rt said\n"
