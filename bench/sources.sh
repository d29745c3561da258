# The sources that bench/ measures, and their spellings for other assemblers. The scripts of bench/ read this file.

# A program that does not end: a page of cells is filled, and then added to for ever, with a call at each page's end.
loop_source() {
  tr ' ' '\t' <<'SOURCE'
 ORG 100H
 LXI H,200H
 MVI B,1
 XRA A
FILL: MOV M,A
 INR L
 JNZ FILL
ADDS: MOV A,M
 ADD B
 MOV M,A
 INR L
 CZ PAGE
 JMP ADDS
PAGE: PUSH H
 POP D
 RET
 END
SOURCE
}

# A source of so many lines, in loops of ten lines: moves, a sum of words, flags that are set and used, and a jump back.
source_of() {
  awk -v lines="$1" 'BEGIN {
    print "\tORG\t100H"
    for (k = 0; 10 * k + 12 <= lines; k++) {
      printf "L%d:\tMOV\tA,M\n\tINX\tH\n\tADD\tB\n; the sum, and what it is joined with\n\tORA\tC\n; the counter\n\tMOV\tC,A\n\tXRA\tA\n\tINR\tB\n\tJNZ\tL%d\n", k, k
    }
    for (k = 10 * k + 3; k <= lines; k++) print "\tNOP"
    print "\tJMP\t0"
  }'
}

# Such a source, or that of `sample`, as z80asm reads it.
as_z80() {
  sed -E 's/\tMOV\tA,M/\tld a,(hl)/; s/\tMOV\t/\tld /; s/\tMVI\t/\tld /; s/\tLXI\tH/\tld hl/; s/\tINX\tH/\tinc hl/; s/\tDAD\tH/\tadd hl,hl/
    s/\tINR\t/\tinc /; s/\tDCR\t/\tdec /; s/\tADD\t/\tadd a,/; s/\tORA\t/\tor /; s/\tXRA\t/\txor /; s/\tJNZ\t/\tjp nz,/; s/\tJMP\t/\tjp /
    /\tEND/d'
}

# A text of ASM-86 as NASM reads it.
as_nasm() {
  tr -d '\r' | sed -E '/\t(CSEG|DSEG|END|ORG|RB)/d
    s/(BYTE|WORD) PTR \.([0-9A-F]+H)/[\2]/; s/BYTE PTR \[/byte [/; s/OFFSET //; s/\tJMPS\t/\tjmp short /; 1i bits 16'
}
