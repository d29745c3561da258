#!/usr/bin/env bash
# Times the program that ./build has made: bench/bench.sh. All figures are of one run, in the tables of docs/PERFORMANCE.md: seconds
# are the least of several, and stand beside those of NASM for a text and of z80asm for a source, where these are installed, on
# the same instructions. It wants GNU time. The gate does not run it.
set -e
here=$(cd "$(dirname "$0")/.." && pwd)
program=${PROGRAM:-$here/crates/xlt_main/out/xlt_main}
room=$(mktemp -d)
trap 'rm -rf "$room"' EXIT
cd "$room"

. "$here/bench/sources.sh"

# The least of the seconds of so many runs; each must end with the status that is given.
seconds() {
  local runs=$1 wanted=$2 status run TIMEFORMAT=%R
  shift 2
  for ((run = 0; run < runs; run++)); do
    { time { status=0; "$@" >said 2>told || status=$?; }; } 2>>times
    [ "$status" -eq "$wanted" ] || { echo "status $status: $*" >&2; return 1; }
  done
  sort -n times | head -n 1
  rm times
}

# Resident KiB of a command.
resident() {
  /usr/bin/time -f %M -o kib "$@" >said 2>told || true
  tail -n 1 kib
}

ratio() {
  awk -v a="$1" -v b="$2" 'BEGIN { if (b == "" || b + 0 == 0) print "-"; else printf "%.1f\n", a / b }'
}

# A row: its name, seconds, KiB, and how many times the seconds of another assembler.
row() {
  local name=$1 other=$2 taken
  shift 2
  taken=$(seconds 5 0 "$@")
  printf '| %s | %s | %s | %s |\n' "$name" "$taken" "$(resident "$@")" "$(ratio "$taken" "$other")"
}

# The rows of one source, in a file, which z80asm and NASM assemble too.
rows() {
  local name=$1 file=$2 z80='' nasm=''
  "$program" translate "$file" lean.a86 >told
  as_z80 <"$file" >z80.asm
  as_nasm <lean.a86 >nasm.asm
  if command -v z80asm >told; then z80=$(seconds 5 0 z80asm -o z80.bin z80.asm); fi
  if command -v nasm >told; then nasm=$(seconds 5 0 nasm -O0 -f bin -o nasm.bin nasm.asm); fi
  row "$name, translate --plain" "$z80" "$program" translate "$file" plain.a86 --plain
  row "$name, translate" "$z80" "$program" translate "$file" lean.a86
  row "$name, check" "$nasm" "$program" check "$file" lean.a86
  printf '| %s, z80asm of the source | %s | | |\n| %s, NASM of the text | %s | | |\n' "$name" "${z80:--}" "$name" "${nasm:--}"
}

# A row of `shrink` over the plain text of a made source of so many lines.
shrink_row() {
  source_of "$1" >made.asm
  "$program" translate made.asm plain.a86 --plain >told
  row "made, shrink of $(($(grep -c : plain.a86) + $(grep -vc : plain.a86))) statements, plain" '' "$program" shrink made.asm plain.a86 short.a86
}

# A row of a run of ten million instructions: seconds, KiB, millions of instructions a second.
run_row() {
  local name=$1 taken
  shift
  taken=$(seconds 3 7 "$program" "$@" --steps 10000000)
  printf '| %s | %s | %s | %s |\n' "$name" "$taken" "$(resident "$program" "$@" --steps 10000000)" "$(ratio 10 "$taken")"
}

echo '| Source and command | Seconds | KiB | Times z80asm, of check times NASM |'
echo '|---|---|---|---|'
"$program" sample 500 sample.asm >told
rows "sample 500 ($(wc -l <sample.asm) lines)" sample.asm
for lines in 4000 8000 16000 32000; do
  source_of "$lines" >made.asm
  rows "made, $lines lines" made.asm
done
for lines in 253 505 1013; do shrink_row "$lines"; done
echo
echo '| Run of 10,000,000 instructions | Seconds | KiB | Million a second |'
echo '|---|---|---|---|'
loop_source >run.asm
"$program" translate run.asm run.a86 >told
run_row 'run80' run80 run.asm
"$program" hex80 run.asm run.hex >said
run_row 'runhex of its bytes' runhex run.hex
run_row 'run86 of its lean text' run86 run.a86
