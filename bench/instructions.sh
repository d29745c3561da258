#!/usr/bin/env bash
# Counts the instructions that the program which ./build has made executes, the same on every machine: bench/instructions.sh [LINES..].
# Callgrind of valgrind counts them. Beside the commands, over sources of 4,000 to 32,000 lines, stand other assemblers on the same
# instructions, where these are installed. The gate does not run it.
set -e
here=$(cd "$(dirname "$0")/.." && pwd)
program=${PROGRAM:-$here/crates/xlt_main/out/xlt_main}
room=$(mktemp -d)
trap 'rm -rf "$room"' EXIT
cd "$room"
. "$here/bench/sources.sh"

# How many instructions a command executes, which must end with the status that is given.
count() {
  local wanted=$1 status=0
  shift
  valgrind --tool=callgrind --callgrind-out-file=counted "$@" >said 2>told || status=$?
  [ "$status" -eq "$wanted" ] || { echo "status $status: $*" >&2; return 1; }
  sed -n 's/.*Collected : *//p' told
}

# A row: its name, the millions of instructions, and how many they are for each line.
row() {
  local name=$1 lines=$2 number
  shift 2
  number=$(count 0 "$@")
  awk -v name="$name" -v lines="$lines" -v number="$number" 'BEGIN { printf "| %s | %.1f | %d |\n", name, number / 1e6, number / lines }'
}

rows() {
  local lines=$1
  source_of "$lines" >made.asm
  as_z80 <made.asm >made.z80
  "$program" translate made.asm lean.a86 >said
  as_nasm <lean.a86 >nasm.asm
  row "$lines lines, translate --plain" "$lines" "$program" translate made.asm out.a86 --plain
  row "$lines lines, translate" "$lines" "$program" translate made.asm out.a86
  row "$lines lines, translate --zilog" "$lines" "$program" translate made.z80 out.a86 --zilog
  row "$lines lines, translate --comments" "$lines" "$program" translate made.asm out.a86 --comments
  row "$lines lines, check" "$lines" "$program" check made.asm lean.a86
  row "$lines lines, flags" "$lines" "$program" flags made.asm
  row "$lines lines, leaves" "$lines" "$program" leaves made.asm
  if command -v z80asm >said; then row "$lines lines, z80asm of the source" "$lines" z80asm -o out.bin made.z80; fi
  if command -v pasmo >said; then row "$lines lines, pasmo of the source" "$lines" pasmo made.z80 out.bin; fi
  if command -v nasm >said; then row "$lines lines, NASM of the text" "$lines" nasm -O0 -f bin -o out.bin nasm.asm; fi
}

# A row of a run: the instructions of the host for each of the machine, between so many and ten times as many.
run_row() {
  local name=$1 few many
  shift
  few=$(count 7 "$program" "$@" --steps 10000)
  many=$(count 7 "$program" "$@" --steps 100000)
  printf '| %s | %s |\n' "$name" $(((many - few) / 90000))
}

echo '| Source and command | Million instructions | For each line |'
echo '|---|---|---|'
for lines in "${@:-4000 8000 16000 32000}"; do for number in $lines; do rows "$number"; done; done
echo
echo '| Run | For each instruction |'
echo '|---|---|'
loop_source >run.asm
"$program" translate run.asm run.a86 >said
"$program" hex80 run.asm run.hex >said
run_row run80 run80 run.asm
run_row 'runhex of its bytes' runhex run.hex
run_row 'run86 of its lean text' run86 run.a86
