#!/usr/bin/env bash
# Refuses each growth of memory of each command in turn, in the program that ./build has made: bench/memory.sh. Either all is then as
# with memory (some growths are of room that can be done without), or the status is 5, no file has changed, and the last line is
# `out of memory`, after the first lines of those that are said with memory. It says a line a command, with how many growths there
# were and how many of them led to status 5; a breach is shown, and the status is then 1. A growth is a call of malloc or realloc,
# which GDB answers with a null in place of the C library. The gate does not run it.
here=$(cd "$(dirname "$0")/.." && pwd)
program=${PROGRAM:-$here/crates/xlt_main/out/xlt_main}
room=$(mktemp -d)
trap 'rm -rf "$room"' EXIT
breaches=0

# Runs a command with the growth of this number refused, 0 for none, in the folder `files`. The answer is how many growths there were
# up to the refused one, and the status.
refuse() {
  local number=$1 words null=()
  printf -v words '%q ' "${@:2}"
  [ "$number" -eq 0 ] || null=(-ex 'set $rip = *(unsigned long *)$rsp' -ex 'set $rsp = $rsp + 8' -ex 'set $rax = 0' -ex delete -ex continue)
  (cd "$room/files" && gdb -q -batch -nx -iex 'set debug-file-directory /none' -ex 'set confirm off' -ex "set args $words > $room/said" -ex 'tbreak main' -ex run \
    -ex 'set $growths = 0' -ex "break *malloc if ++\$growths == $number" -ex "break *realloc if ++\$growths == $number" -ex continue \
    ${null[@]+"${null[@]}"} -ex 'printf "growths %d %d\n", $growths, $_exitcode' "$program" 2>"$room/told") | sed -n 's/^growths //p'
}

# The folder `files` as the command finds it; the files that a command writes hold `before`.
lay() {
  rm -rf "$room/files"
  cp -r "$room/laid" "$room/files"
}

breach() {
  echo "BREACH: $words, growth $number refused: $1"
  breaches=$((breaches + 1))
}

# What a refused growth must lead to, where the status is 5.
look() {
  local said
  said=$(<"$room/said")
  if ! diff -rq "$room/laid" "$room/files" >"$room/told"; then
    breach 'a file has changed'
    lay
  fi
  [ "${said##*$'\n'}" = 'out of memory' ] || breach 'the last line'
  said=${said%'out of memory'}
  [ "${whole#"$said"}" != "$whole" ] || [ -z "$said" ] || breach 'what is said'
}

# What it must lead to else: what the command does with memory.
look_whole() {
  [ "$1" -eq "$wanted" ] || breach "status $1"
  [ "$(<"$room/said")" = "$whole" ] || breach 'what is said'
  diff -rq "$room/left" "$room/files" >"$room/told" || breach 'a file is not as with memory'
  lay
}

# Tries a command, which with memory ends with this status.
try() {
  local wanted=$1 words="${*:2}" number=no growths status fives=0 whole
  shift
  lay
  read -r growths status < <(refuse 0 "$@")
  whole=$(<"$room/said")
  rm -rf "$room/left"
  mv "$room/files" "$room/left"
  lay
  [ "$status" -eq "$wanted" ] || breach "status $status"
  for ((number = 1; number <= growths; number++)); do
    read -r _ status < <(refuse "$number" "$@")
    if [ "$status" -eq 5 ]; then
      fives=$((fives + 1))
      look
    else
      look_whole "$status"
    fi
  done
  echo "$growths growths, $fives with status 5: $words"
}

mkdir "$room/laid"
cp "$here/examples/letter.asm" "$here/examples/menu.keys" "$here/examples/disk" "$room/laid"
printf '\tORG\t100H\n\tIN\t10H\n\tOUT\t11H\n\tJMP\t0\n' >"$room/laid/ports.asm"
printf '\tORG\t100H\n\tXRA\tA\n\tINX\tH\n\tJZ\t0\n\tRET\n' >"$room/laid/saves.asm"
printf '\tORG\t100H\n\tFOO\tBAR\n' >"$room/laid/faulty.asm"
printf 'before' >"$room/laid/out"
(cd "$room/laid" && "$program" translate letter.asm letter.a86 && "$program" cmd letter.a86 letter.cmd && "$program" hex80 letter.asm letter.hex) >"$room/told" || exit 1
sed 's/\(MOV.DL,\)041H/\1042H/' "$room/laid/letter.a86" >"$room/laid/other.a86"

try 0 translate letter.asm out --plain
try 0 translate letter.asm out
try 0 translate saves.asm out
try 0 translate letter.asm out --comments
try 0 check letter.asm letter.a86
try 8 check letter.asm other.a86
try 0 explain letter.asm letter.a86
try 8 explain letter.asm other.a86
try 0 flags saves.asm
try 0 leaves saves.asm
try 0 run80 letter.asm --input menu.keys --disk disk --ports disk --out-disk out
try 0 run80 ports.asm --ports disk
try 7 run80 letter.asm --steps 3 --out-disk out
try 0 run86 letter.a86 --input menu.keys --disk disk --ports disk --out-disk out
try 0 both letter.asm --input menu.keys --disk disk --ports disk --out-disk out
try 0 both ports.asm --ports disk
try 0 sample 1 out
try 0 shrink letter.asm letter.a86 out
try 8 shrink letter.asm other.a86 out
try 0 cmd letter.a86 out
try 0 cmdshow letter.cmd
try 15 cmdshow letter.asm
try 0 hex80 letter.asm out
try 0 runhex letter.hex
try 16 runhex letter.asm
try 1 translate faulty.asm out
try 3 translate missing.asm out
try 2 translate saves.asm out --top 1234
[ "$breaches" -eq 0 ] || exit 1
