; DUMP prints a file in hexadecimal: DUMP NAME. A line has 16 bytes, after the offset of the first in the file. A key
; stops it.
;
; It is run on both machines, over a disk with A.TXT, by
;     ./xlt both examples/dump.asm --disk examples/disk --tail A.TXT

BDOS    EQU     5               ; where the system is called
CONIN   EQU     1               ; its functions: a key
CONOUT  EQU     2               ; a character
PRINT   EQU     9               ; a string
CONSTAT EQU     11              ; whether there is a key
OPEN    EQU     15              ; a file
READ    EQU     20              ; a record
FCB     EQU     5CH             ; the file control block of the first name
BUFFER  EQU     80H             ; a record of 128 bytes
CR      EQU     13
LF      EQU     10

        ORG     100H
        LXI     H,0             ; the stack of CP/M, to go back to it
        DAD     SP
        SHLD    OLDSP
        LXI     SP,STACK

        XRA     A
        STA     FCB+32          ; from the first record on
        LXI     D,FCB
        MVI     C,OPEN
        CALL    BDOS
        INR     A               ; 0FFH: there is no such file
        JZ      NOFILE

RECORD: LXI     D,FCB
        MVI     C,READ
        CALL    BDOS
        ORA     A               ; not 0 after the last record
        JNZ     FINISH
        LXI     H,BUFFER

; A line of 16 bytes from HL on
LINE:   PUSH    H
        MVI     C,CONSTAT
        CALL    BDOS
        POP     H
        ORA     A
        JNZ     STOP
        CALL    PLACE
BYTES:  MVI     A,' '
        CALL    PUT
        MOV     A,M
        CALL    HEX
        INX     H
        MOV     A,L
        ANI     0FH             ; the buffer begins at a multiple of 16
        JNZ     BYTES
        CALL    CRLF
        MOV     A,L             ; and it ends at 100H
        ORA     A
        JNZ     LINE
        JMP     RECORD

STOP:   MVI     C,CONIN         ; the key is taken
        CALL    BDOS
        CALL    CRLF
        JMP     FINISH

NOFILE: LXI     D,NOMSG
        MVI     C,PRINT
        CALL    BDOS
FINISH: LHLD    OLDSP
        SPHL
        RET

; Prints the offset, and adds 16 to it; HL stays.
PLACE:  PUSH    H
        LHLD    OFFS
        MOV     A,H
        CALL    HEX
        MOV     A,L
        CALL    HEX
        LXI     D,16
        DAD     D
        SHLD    OFFS
        POP     H
        RET

; Prints A in two hexadecimal digits; HL stays.
HEX:    PUSH    PSW
        RRC
        RRC
        RRC
        RRC
        CALL    DIGIT
        POP     PSW
DIGIT:  ANI     0FH
        ADI     90H             ; 0 to 9 become 90H to 99H, and 10 to 15 carry:
        DAA                     ; 0 to 5 with CY
        ACI     40H
        DAA                     ; '0' to '9', 'A' to 'F'

; Prints the character in A; HL stays.
PUT:    PUSH    H
        MOV     E,A
        MVI     C,CONOUT
        CALL    BDOS
        POP     H
        RET

CRLF:   MVI     A,CR
        CALL    PUT
        MVI     A,LF
        JMP     PUT

NOMSG:  DB      'No file',CR,LF,'$'
OFFS:   DW      0               ; the offset of the next line
OLDSP:  DS      2
        DS      64
STACK   EQU     $
        END
