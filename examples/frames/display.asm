; Sets the dot at x, y, which are in R0 and R1. It changes R3 to R5.
Display.Dot:
        LSL R3, R1, 7           ; a line has 128 bytes
        ASR R4, R0, 5
        LSL R4, R4, 2
        ADD R3, R3, R4
        MOV' R4, DISPLAY / 10000H
        IOR R4, R4, DISPLAY % 10000H
        ADD R3, R3, R4
        AND R4, R0, 31
        MOV R5, 1
        LSL R5, R5, R4
        LDR R4, R3, 0
        IOR R4, R4, R5
        STR R4, R3, 0
        B LNK
