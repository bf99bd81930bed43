; Text on the screen, in columns and in rows from above. What is written while Texts.log is not 0 is sent, too.
COLUMNS = 60
ROWS = 26
PITCH = 16                      ; from a column to the next one
LEADING = 28                    ; from a row to the next one
LEFT = 24
TOP = 728
ENTER = 13
RUBOUT = 8

; Writes the sign R0 at the caret, which goes on by a column.
Texts.Write:
        SUB SP, SP, 8
        STR LNK, SP, 0
        STR R0, SP, 4
        MOV R3, Texts.log
        LDR R3, R3, 0
        BEQ Texts.Write.unsent
        MOV R3, SERIAL
        STR R0, R3, 0
Texts.Write.unsent:
        SUB R3, R0, ENTER
        BEQ Texts.Write.line
        BL Texts.Place
        LDR R0, SP, 4
        BL Fonts.Draw
        MOV R3, Texts.column
        LDR R0, R3, 0
        ADD R0, R0, 1
        STR R0, R3, 0
        SUB R0, R0, COLUMNS
        BLT Texts.Write.done
Texts.Write.line:
        BL Texts.Line
Texts.Write.done:
        LDR LNK, SP, 0
        ADD SP, SP, 8
        B LNK

; Where the caret is on the screen: R1, R2.
Texts.Place:
        MOV R3, Texts.column
        LDR R1, R3, 0
        MUL R1, R1, PITCH
        ADD R1, R1, LEFT
        LDR R2, R3, Texts.row - Texts.column
        MUL R2, R2, LEADING
        MOV R4, TOP
        SUB R2, R4, R2
        B LNK

; Goes to the next row, and after the last one to the first row of an empty screen.
Texts.Line:
        SUB SP, SP, 4
        STR LNK, SP, 0
        MOV R3, Texts.column
        MOV R0, 0
        STR R0, R3, 0
        LDR R0, R3, Texts.row - Texts.column
        ADD R0, R0, 1
        STR R0, R3, Texts.row - Texts.column
        SUB R0, R0, ROWS
        BLT Texts.Line.done
        MOV R0, 0
        STR R0, R3, Texts.row - Texts.column
        BL Display.Clear
Texts.Line.done:
        LDR LNK, SP, 0
        ADD SP, SP, 4
        B LNK

; Takes the last sign of the row away.
Texts.Rub:
        SUB SP, SP, 4
        STR LNK, SP, 0
        MOV R3, Texts.column
        LDR R0, R3, 0
        SUB R0, R0, 1
        STR R0, R3, 0
        BL Texts.Place
        MOV R0, ' '
        BL Fonts.Draw
        LDR LNK, SP, 0
        ADD SP, SP, 4
        B LNK

; Writes the text at R0, up to a byte of 0.
Texts.String:
        SUB SP, SP, 8
        STR LNK, SP, 0
Texts.String.next:
        STR R0, SP, 4
        LDB R0, R0, 0
        BEQ Texts.String.done
        BL Texts.Write
        LDR R0, SP, 4
        ADD R0, R0, 1
        B Texts.String.next
Texts.String.done:
        LDR LNK, SP, 0
        ADD SP, SP, 8
        B LNK

; Writes the number R0 in decimal.
Texts.Int:
        SUB SP, SP, 8
        STR LNK, SP, 0
        STR R0, SP, 4
        MOV R0, R0
        BPL Texts.Int.digits
        MOV R0, '-'
        BL Texts.Write
        LDR R0, SP, 4
        XOR R0, R0, -1
        ADD R0, R0, 1
Texts.Int.digits:
        DIV R0, R0, 10
        MOV' R1, H
        STR R1, SP, 4           ; the last digit
        MOV R0, R0
        BEQ Texts.Int.last
        BL Texts.Int
Texts.Int.last:
        LDR R0, SP, 4
        ADD R0, R0, '0'
        BL Texts.Write
        LDR LNK, SP, 0
        ADD SP, SP, 8
        B LNK

; Writes the number R0 at column R1 of the first row; the caret stays where it is.
Texts.IntAt:
        SUB SP, SP, 12
        STR LNK, SP, 0
        MOV R3, Texts.column
        LDR R2, R3, 0
        STR R2, SP, 4
        LDR R2, R3, Texts.row - Texts.column
        STR R2, SP, 8
        STR R1, R3, 0
        MOV R2, 0
        STR R2, R3, Texts.row - Texts.column
        BL Texts.Int
        MOV R3, Texts.column
        LDR R2, SP, 4
        STR R2, R3, 0
        LDR R2, SP, 8
        STR R2, R3, Texts.row - Texts.column
        LDR LNK, SP, 0
        ADD SP, SP, 12
        B LNK

Texts.column: word 0
Texts.row:    word 0
Texts.log:    word 0
