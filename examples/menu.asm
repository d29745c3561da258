; MENU prints a menu, reads a key, and does what it chooses: 1 greets, 2 reads a line and prints it in capitals, 3 ends.
; The routines stand in a table, by their addresses.
;
; It is run on both machines, with the keys of a file, by
;     ./xlt both examples/menu.asm --input examples/menu.keys

BDOS    EQU     5               ; where the system is called
CONIN   EQU     1               ; its functions: a key
CONOUT  EQU     2               ; a character
PRINT   EQU     9               ; a string
RDLINE  EQU     10              ; a line
CR      EQU     13
LF      EQU     10

        ORG     100H
        LXI     SP,STACK
MENU:   LXI     D,ASK
        CALL    TELL
        MVI     C,CONIN
        CALL    BDOS
        SUI     '1'
        CPI     COUNT
        JNC     MENU            ; no such choice

; The routine of this number; it comes back to MENU.
        LXI     H,MENU
        PUSH    H
        MOV     E,A
        MVI     D,0
        LXI     H,TABLE
        DAD     D
        DAD     D
        MOV     E,M
        INX     H
        MOV     D,M
        XCHG
        PCHL

GREET:  LXI     D,HELLO
        JMP     TELL

CAPS:   CALL    CRLF
        LXI     D,BUFFER
        MVI     C,RDLINE
        CALL    BDOS
        CALL    CRLF
        LXI     H,BUFFER+1
        MOV     B,M             ; how many characters the line has
        INR     B
NEXT:   DCR     B
        JZ      CRLF
        INX     H
        MOV     A,M
        CALL    RAISE
        PUSH    H
        PUSH    B
        CALL    PUT
        POP     B
        POP     H
        JMP     NEXT

LEAVE:  LXI     D,BYE
        CALL    TELL
        JMP     0

; A letter as a capital, any other character as it is
RAISE:  CPI     'a'
        RC
        CPI     'z'+1
        RNC
        ANI     5FH
        RET

CRLF:   LXI     D,ENDL
TELL:   MVI     C,PRINT
        JMP     BDOS            ; the system comes back to who called

PUT:    MOV     E,A
        MVI     C,CONOUT
        JMP     BDOS

TABLE:  DW      GREET,CAPS,LEAVE
COUNT   EQU     ($-TABLE)/2

ASK:    DB      CR,LF,'1 greet, 2 capitals, 3 end: $'
HELLO:  DB      CR,LF,'Hello.$'
BYE:    DB      CR,LF,'Goodbye.'
ENDL:   DB      CR,LF,'$'
BUFFER: DB      40              ; room for 40 characters
        DS      41
        DS      64
STACK   EQU     $
        END
