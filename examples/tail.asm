; TAIL prints the letter of its command tail; "+" for a longer tail, nothing for none. README.md shows its translation.
	ORG	100H
	LXI	H,80H	; the length of the tail
	MOV	A,M
	CPI	2
	INX	H	; INX keeps the flags of CPI
	INX	H
	JC	0	; no tail: end
	MOV	E,M
	JZ	SAY	; one letter: print it
	MVI	E,'+'
SAY:	MVI	C,2	; print a character
	CALL	5
	RET
	END
