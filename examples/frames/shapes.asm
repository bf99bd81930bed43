; Each procedure has x, y and a length in R0, R1 and R2, and keeps them and the way back in a frame on the stack.

; Draws dots from x, y to the right.
Shapes.Row:
        SUB SP, SP, 16
        STR LNK, SP, 0
        STR R0, SP, 4
        STR R1, SP, 8
Shapes.Row.next:
        STR R2, SP, 12
        BL Display.Dot
        LDR R0, SP, 4
        ADD R0, R0, 1
        STR R0, SP, 4
        LDR R1, SP, 8
        LDR R2, SP, 12
        SUB R2, R2, 1
        BNE Shapes.Row.next
        LDR LNK, SP, 0
        ADD SP, SP, 16
        B LNK

; Draws dots from x, y upward.
Shapes.Column:
        SUB SP, SP, 12
        STR LNK, SP, 0
        STR R0, SP, 4
        STR R1, SP, 8
Shapes.Column.next:
        STR R2, SP, 12
        BL Display.Dot
        LDR R0, SP, 4
        LDR R1, SP, 8
        ADD R1, R1, 1
        STR R1, SP, 8
        LDR R2, SP, 12
        SUB R2, R2, 1
        BNE Shapes.Column.next
        LDR LNK, SP, 0
        ADD SP, SP, 12
        B LNK

; Draws a square with x, y as its lower left corner.
Shapes.Box:
        SUB SP, SP, 16
        STR R0, SP, 0
        STR R1, SP, 4
        STR R2, SP, 8
        STR LNK, SP, 12
        BL Shapes.Row           ; the lower side
        LDR R0, SP, 0
        LDR R1, SP, 4
        LDR R2, SP, 8
        BL Shapes.Column        ; the left side
        LDR R0, SP, 0
        LDR R1, SP, 4
        LDR R2, SP, 8
        ADD R0, R0, R2
        SUB R0, R0, 1
        BL Shapes.Column        ; the right side
        LDR R0, SP, 0
        LDR R1, SP, 4
        LDR R2, SP, 8
        ADD R1, R1, R2
        SUB R1, R1, 1
        BL Shapes.Row           ; the upper side
        LDR LNK, SP, 12
        ADD SP, SP, 16
        B LNK
