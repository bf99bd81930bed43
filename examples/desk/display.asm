; Dots and blocks of dots. A mode says what becomes of a dot: ERASE, PAINT or INVERT.
ERASE = 0
PAINT = 1
INVERT = 2

; Sets the dot at R0, R1 as the mode R2 says.
Display.Dot:
        LSL R3, R1, 7           ; a line has 128 bytes
        ASR R4, R0, 5
        LSL R4, R4, 2
        ADD R3, R3, R4
        MOV' R4, DISPLAY / 10000H
        IOR R4, R4, DISPLAY % 10000H
        ADD R3, R3, R4
        AND R4, R0, 31
        MOV R5, 1
        LSL R5, R5, R4
        LDR R4, R3, 0
        MOV R6, R2
        BEQ Display.Dot.erase
        SUB R6, R2, INVERT
        BEQ Display.Dot.invert
        IOR R4, R4, R5
        B Display.Dot.done
Display.Dot.erase:
        ANN R4, R4, R5
        B Display.Dot.done
Display.Dot.invert:
        XOR R4, R4, R5
Display.Dot.done:
        STR R4, R3, 0
        B LNK

; Fills a block with its lower left corner at R0, R1, by the mode R2. It is R3 dots wide and R4 dots high.
Display.Block:
        SUB SP, SP, 28
        STR LNK, SP, 0
        STR R0, SP, 4
        STR R1, SP, 8
        STR R2, SP, 12
        STR R3, SP, 16
        STR R4, SP, 20
Display.Block.row:
        MOV R6, 0
        STR R6, SP, 24
Display.Block.dot:
        LDR R0, SP, 4
        ADD R0, R0, R6
        LDR R1, SP, 8
        LDR R2, SP, 12
        BL Display.Dot
        LDR R6, SP, 24
        ADD R6, R6, 1
        STR R6, SP, 24
        LDR R3, SP, 16
        SUB R3, R6, R3
        BLT Display.Block.dot
        LDR R1, SP, 8
        ADD R1, R1, 1
        STR R1, SP, 8
        LDR R4, SP, 20
        SUB R4, R4, 1
        STR R4, SP, 20
        BGT Display.Block.row
        LDR LNK, SP, 0
        ADD SP, SP, 28
        B LNK

; Draws a square with its lower left corner at R0, R1, whose sides are R2 dots long.
Display.Square:
        SUB SP, SP, 16
        STR LNK, SP, 0
        STR R0, SP, 4
        STR R1, SP, 8
        STR R2, SP, 12
        MOV R3, R2              ; the lower side
        MOV R4, 1
        MOV R2, PAINT
        BL Display.Block
        LDR R0, SP, 4           ; the left side
        LDR R1, SP, 8
        LDR R4, SP, 12
        MOV R3, 1
        MOV R2, PAINT
        BL Display.Block
        LDR R0, SP, 4           ; the right side
        LDR R1, SP, 8
        LDR R4, SP, 12
        ADD R0, R0, R4
        SUB R0, R0, 1
        MOV R3, 1
        MOV R2, PAINT
        BL Display.Block
        LDR R0, SP, 4           ; the upper side
        LDR R1, SP, 8
        LDR R3, SP, 12
        ADD R1, R1, R3
        SUB R1, R1, 1
        MOV R4, 1
        MOV R2, PAINT
        BL Display.Block
        LDR LNK, SP, 0
        ADD SP, SP, 16
        B LNK

; Erases the whole screen.
Display.Clear:
        MOV' R0, DISPLAY / 10000H
        IOR R0, R0, DISPLAY % 10000H
        MOV R1, 768 * 32
        MOV R2, 0
Display.Clear.next:
        STR R2, R0, 0
        ADD R0, R0, 4
        SUB R1, R1, 1
        BNE Display.Clear.next
        B LNK
