; The mouse, the keyboard and the time, as Oberon's module Input has them.

; Notes where the mouse is and which of its keys are down. R0 is not 0 if a key of the keyboard waits.
Input.Poll:
        MOV R1, MOUSE
        LDR R0, R1, 0
        MOV R2, Input.x
        AND R3, R0, 3FFH
        STR R3, R2, 0
        ASR R3, R0, 12
        AND R3, R3, 3FFH
        STR R3, R2, Input.y - Input.x
        ASR R3, R0, 24
        AND R3, R3, 7
        STR R3, R2, Input.keys - Input.x
        ASR R0, R0, 28
        AND R0, R0, 1
        B LNK

; Takes the oldest key that waits: R0.
Input.Read:
        MOV R1, KEY
        LDR R0, R1, 0
        B LNK

; The time in milliseconds: R0.
Input.Time:
        MOV R1, TIMER
        LDR R0, R1, 0
        B LNK

Input.x:    word 0
Input.y:    word 0
Input.keys: word 0
