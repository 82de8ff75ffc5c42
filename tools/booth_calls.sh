#!/usr/bin/env bash
# Good and bad calls of target/bin/booth (after `tools/program.sh booth`; or of the program BOOTH): what each must say, on which stream, and whether its packet is empty. Needs nothing else.
set -uo pipefail
cd "$(dirname "$0")/.."
booth=${BOOTH:-$PWD/target/bin/booth}
examples=$PWD/examples
findings=$PWD/reference/findings
[ -x "$booth" ] || { echo "booth_calls: no $booth: run tools/program.sh booth" >&2; exit 1; }
work=$(mktemp -d)
trap 'rm -rf "$work"' EXIT
cd "$work"
calls=0
wrong=0

bad() { echo "wrong: $1"; failed=1; }

# call STREAM TEXT PACKET ARGUMENTS..: TEXT must stand on STREAM (out, err). An error leaves the other stream free of it, an answer leaves standard error empty.
# PACKET says what p.bin is afterwards, which is `old` before each call: `full`, `empty`, or still `old`.
call() {
    local stream=$1 text=$2 packet=$3
    shift 3
    failed=0
    calls=$((calls + 1))
    echo old > p.bin
    "$booth" "$@" > out 2> err < /dev/null || bad "booth $*: status $?"
    grep -qF -- "$text" "$stream" || bad "booth $*: standard $stream has no '$text'"
    if [ "$stream" = out ] && [ -s err ]; then bad "booth $*: $(head -1 err)"; fi
    if [ "$stream" = err ] && grep -qF -- "$text" out; then bad "booth $*: '$text' is on standard output"; fi
    case $packet in
        full) { [ -s p.bin ] && [ "$(tr -d '\0' < p.bin)" != old ]; } || bad "booth $*: no packet" ;;
        empty) { [ -e p.bin ] && [ ! -s p.bin ]; } || bad "booth $*: the packet is not empty" ;;
        old) [ "$(cat p.bin)" = old ] || bad "booth $*: the packet is not as it was" ;;
    esac
    wrong=$((wrong + failed))
}

# edit NAME SED: a scene made of the booth by an edit of its text.
edit() { sed "$2" "$examples/booth.case" > "$1"; ! cmp -s "$1" "$examples/booth.case" || bad "$1 is not edited"; }

# ---- good
call out 'taps 16, packet of 874 bytes' old
call out 'taps 6, packet of 334 bytes' old "$examples/shoebox.case"
call out 'taps 6, packet of 334 bytes' full "$examples/shoebox.case" p.bin
call out '20.0 degrees, sound at 343.20 metres a second, 48000.0 samples a second, order 1.' full "$examples/shoebox.case" p.bin
call out 'scene shoebox' old "$examples/shoebox.case"
call out 'The direct sound, which is not among the taps, takes 338.28 samples' full "$examples/shoebox.case" p.bin
call out 'packet of' old "$examples/booth.case"
call out 'The list is full with 16 taps' full "$examples/booth.case" p.bin
call out 'packet of' old "$examples/screen.case"
call out 'packet of' full "$examples/screen.case" p.bin
call out '0    0.000  1.000  0.000     0.000      60.00     0        0  # floor' old
call out 'scene screen' old --all "$examples/shoebox.case" "$examples/screen.case"
call out 'scene built-in' old --all
call out 'packet of' full --time "$examples/screen.case" p.bin
call out 'scene built-in' old --time --all "$examples/shoebox.case"
[ "$("$booth" --time "$examples/screen.case" | awk '/^ tap order/ {t = 1; next} /^$/ {t = 0} t {print $4}')" = \
    "$("$booth" "$examples/screen.case" | awk '/^ tap order/ {t = 1; next} /^$/ {t = 0} t {print $4}' | sort -n)" ] || { echo 'wrong: --time is not in order'; wrong=$((wrong + 1)); }
for scene in "$examples"/*.case "$findings"/*.case; do
    "$booth" "$scene" 2>&1 | awk -v scene="$scene" 'length($0) > 100 {print "wrong: " scene ": " length($0) " columns"; bad = 1} END {exit bad}' || wrong=$((wrong + 1))
done

# ---- what was cut
edit deep.case 's/^counts 3 /counts 8 /'
call out 'The search stopped at its limit of 250000 images' full deep.case p.bin
edit loud.case 's/^m 0.05 0.06 /m 1.5 -0.5 /'
call out 'Of the absorptions and transmissions 2 lie outside 0 to 1' full loud.case p.bin
edit out_of_range.case '0,/^i 0 1 2/s/^i 0 1 2/i 0 1 99/'
call out 'Triangles left out, with an index out of range: 1.' full out_of_range.case p.bin
edit no_area.case '0,/^i 0 1 2/s/^i 0 1 2/i 0 1 1/'
call out 'Triangles left out, with no area: 1.' full no_area.case p.bin
call out 'No echo is heard, and the source lies on a wall' full "$findings/a_source_0.00005.case" p.bin
call out 'The list is full with 16 taps of 82 that are heard' old
edit few_walls.case 's/^counts 3 16 32 /counts 3 16 4 /'
call out 'Of 9 walls that were found 4 are used' full few_walls.case p.bin
edit no_walls.case 's/^counts 3 16 32 /counts 3 16 0 /'
call out 'Of 9 walls that were found 0 are used' full no_walls.case p.bin
call out 'No echo is heard: there is no wall.' full no_walls.case p.bin
edit all_taps.case 's/^counts 3 16 /counts 3 100 /'
call out 'taps 82, packet of' full all_taps.case p.bin
edit no_order.case 's/^counts 3 /counts 0 /'
call out 'No echo is searched for' full no_order.case p.bin
edit no_taps.case 's/^counts 3 16 /counts 3 0 /'
call out 'No tap is asked for' full no_taps.case p.bin
edit separated.case 's/^separated 0/separated 1/'
call out 'Nothing is heard: the scene has `separated 1`' full separated.case p.bin
edit outside.case 's/^source 2 1.2 2/source -2 1.2 2/'
call out 'No echo is heard: each is blocked' full outside.case p.bin

# ---- bad
call err 'usage: booth' old a b c
call err 'usage: booth' old ''
call err 'the scene and the packet have the same name' old p.bin p.bin
cp "$examples/shoebox.case" mine.case
call err 'the packet would overwrite the scene' old mine.case ./mine.case
cmp -s mine.case "$examples/shoebox.case" || { echo 'wrong: mine.case is lost'; wrong=$((wrong + 1)); }
call err 'missing.case: No such file or directory' empty missing.case p.bin
call err '.: Is a directory' empty . p.bin
call err 'none/p.bin: No such file or directory' old "$examples/shoebox.case" none/p.bin
call err '.case: invalid filename' empty $'\377.case' p.bin
call err '.bin: invalid filename' old "$examples/shoebox.case" $'\377.bin'
# what cannot be printed ends the program with 1; the packet is not written
calls=$((calls + 1))
echo old > p.bin
if "$booth" "$examples/shoebox.case" p.bin > /dev/full 2> err < /dev/null || [ -s p.bin ] || ! grep -q '^Error: .*No space left on device' err; then
    echo 'wrong: booth goes on where it cannot print'
    wrong=$((wrong + 1))
fi
: > nothing.case
call err 'line 1: expected `case`' empty nothing.case p.bin
edit word.case 's/^merge 1/merged 1/'
call err ": expected \`merge\`, and found 'merged'" empty word.case p.bin
edit number.case 's/^counts 3 /counts three /'
call err ': expected a whole number below 4,294,967,296' empty number.case p.bin
# a setting of the line `floats`, and what is said of it
float() { edit float.case "s/^floats 0.1 50 /floats $1 50 /"; call err "line 5: '$1' is no number that this program reads: $2" empty float.case p.bin; }
float 0.99619472 'write a decimal of at most seven digits'
float 1.0000000001 'write a decimal of at most seven digits'
float 123456789 'write a decimal of at most seven digits'
float 10000000 'write 0x10000000 for a float'
float 3dcccccd 'write 0x3dcccccd for a float'
float 12345e10 'write 0x12345e10 for a float'
float 0x3dccccc 'bits are 0x and eight digits'
float 0x3DCCCCCD 'bits are 0x and eight digits'
float 1e-1 'write it without an exponent'
float 1E3 'write it without an exponent'
float -2e3 'write it without an exponent'
float merge 'write a decimal of at most seven digits'
float +0.1 'write it without the plus'
float .1 'write a digit on each side'
float 1. 'write a digit on each side'
float -.1 'write a decimal of at most seven digits'
float 0,1 'write a decimal of at most seven digits'
edit bits.case 's/^floats 0.1 /floats 0x3dcccccd /'
call out 'packet of' full bits.case p.bin
cmp -s <("$booth" bits.case | tail -n +2) <("$booth" "$examples/booth.case" | tail -n +2) || { echo 'wrong: bits are not read as the decimal'; wrong=$((wrong + 1)); }
edit short.case '$d'
call err 'expected `end`, and the text ends' empty short.case p.bin
edit longer.case '$a end'
call err "expected nothing more after \`end\`, and found 'end'" empty longer.case p.bin
edit materials.case 's/^materials 4/materials 65/'
call err "expected at most 64 materials, which there is room for, and found '65'" empty materials.case p.bin
{ printf '\357\273\277'; cat "$examples/booth.case"; } > marked.case
call err 'line 1: the text begins with a byte order mark' empty marked.case p.bin
head -c 262145 /dev/zero | tr '\0' ' ' > long.case
call err 'the scene is longer than 262,144 bytes' empty long.case p.bin
# an edit of the scene by which refusal 1 names a setting
setting() { edit setting.case "$1"; call err "refusal 1: $2" empty setting.case p.bin; }
setting 's/^counts 3 16 32 4096/counts 3 16 257 4096/' 'max_reflection_planes is 257, and must be from 0 to 256 (line 4)'
setting 's/^counts 3 16 32 4096/counts 3 16 32 250001/' 'the room for candidates is 250001, and must be from 0 to 250000 (line 4)'
setting 's/^floats 0.1 50 /floats 0.1 1001 /' 'max_reflection_distance is 1001, and must be above 0 and at most 1000 (line 5)'
setting 's/^floats 0.1 50 /floats 0.1 0 /' 'max_reflection_distance is 0, and must be above 0 and at most 1000 (line 5)'
setting 's/^floats 0.1 50 20 /floats 0.1 50 -20.1 /' 'temperature_celsius is -20.1, and must be from -20 to 50 (line 5)'
setting 's/^floats 0.1 50 20 48000 /floats 0.1 50 20 4000 /' 'sample_rate is 4000, and must be from 8000 to 192000 (line 5)'
setting 's/ 0.9961947 0.25 0.05 / 1.5 0.25 0.05 /' 'plane_merge_cos is 1.5, and must be from -1 to 1 (line 5)'
setting 's/^floats 0.1 /floats 0x7f800000 /' 'reflection_edge_fade is 0x7f800000, and must be finite (line 5)'
setting 's/ 0.9961947 0.25 0.05 / 0.9961947 0xff800000 0.05 /' 'plane_merge_offset is 0xff800000, and must be finite (line 5)'
setting 's/ 0.9961947 0.25 0.05 / 0.9961947 0.25 0x7fc00000 /' 'plane_buried_distance is 0x7fc00000, and must be finite (line 5)'
setting 's/^curve inverse 1 1 1 10000/curve inverse -1 1 1 10000/' 'reference_distance is -1, and must be from 0 to 1000000 (line 7)'
setting 's/^curve inverse 1 1 1 10000/curve inverse 1 2000000 1 10000/' 'rolloff_factor is 2000000, and must be from 0 to 1000000 (line 7)'
setting 's/^curve inverse 1 1 1 10000/curve inverse 1 1 -1 10000/' 'min_distance is -1, and must be from 0 to 1000000 (line 7)'
setting 's/^curve inverse 1 1 1 10000/curve inverse 1 1 1 -1/' 'max_distance is -1, and must be from 0 to 1000000 (line 7)'
setting 's/^air 121 /probes 33 0.06\nair 121 /' 'crossing_limit is 33, and must be from 1 to 32 (line 8)'
setting 's/^air 121 /probes 8 1.5\nair 121 /' 'probe_radius is 1.5, and must be from 0 to 1 (line 8)'
setting 's/^air 121 440 /air 121 1000001 /' 'a coefficient of the air is 1000001, and must be from 0 to 1000000 (line 8)'
setting 's/^air 121 440 /probes 8 0.06 air 121 1000001 /' 'a coefficient of the air is 1000001, and must be from 0 to 1000000 (line 8)'
edit row.case '0,/^mesh 0 /s/^mesh 0 /mesh 9 /'
call err 'refusal 3: a mesh has a handle without a row of materials' empty row.case p.bin
edit far.case '0,/^p 12 /s/^p 12 /p 20000 /'
call err 'refusal 6: a placed corner is not finite or beyond 10,000' empty far.case p.bin

echo "$calls calls, $wrong wrong"
[ "$wrong" = 0 ]
