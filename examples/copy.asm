; COPY copies a file: COPY OLD NEW makes NEW with the records of OLD; a file NEW that was there before is lost.
;
; It is run on both machines, over a disk with A.TXT, by
;     ./xlt both examples/copy.asm --disk examples/disk --out-disk disk.new --tail "A.TXT B.TXT"

BDOS    EQU     5               ; where the system is called
FCB1    EQU     5CH             ; the file control block of the first name
FCB2    EQU     6CH             ; the name of the second, 16 bytes further on

        ORG     100H

; The first block has 33 bytes, and so the second name goes elsewhere before the first file is opened.
        LXI     H,FCB2          ; second name
        LXI     D,DEST
        MVI     B,12            ; its drive and its 11 letters
MOVE:   MOV     A,M
        STAX    D
        INX     H
        INX     D
        DCR     B
        JNZ     MOVE

; Both files from their first record on
        XRA     A
        STA     DEST+12
        STA     DEST+32
        STA     FCB1+32

        LXI     D,FCB1
        MVI     C,15            ; open
        CALL    BDOS
        INR     A               ; 0FFH: there is no such file
        JZ      NOFILE

        LXI     D,DEST
        MVI     C,19            ; delete
        CALL    BDOS
        LXI     D,DEST
        MVI     C,22            ; make
        CALL    BDOS
        INR     A               ; 0FFH: no room in the directory
        JZ      NOFILE

        LXI     D,BUF
        MVI     C,26            ; records go through BUF
        CALL    BDOS

COPY:   LXI     D,FCB1
        MVI     C,20            ; read a record
        CALL    BDOS
        ORA     A               ; not 0 after the last one
        JNZ     DONE
        LXI     D,DEST
        MVI     C,21            ; write it
        CALL    BDOS
        ORA     A               ; not 0 where the disk is full
        JZ      COPY

DONE:   LXI     D,DEST
        MVI     C,16            ; close
        CALL    BDOS
        LXI     D,OKMSG
        JMP     TELL

NOFILE: LXI     D,NOMSG
TELL:   MVI     C,9             ; print a string
        CALL    BDOS
        RET                     ; to CP/M

OKMSG:  DB      'Copied',13,10,'$'
NOMSG:  DB      'No file',13,10,'$'
DEST:   DS      33              ; the file control block of the second name
BUF:    DS      128             ; one record
        END
