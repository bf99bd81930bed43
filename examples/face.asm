; Draws a smiling face, from the lowest line of the display up. A dot is set if it is in the outline of the face, in its
; mouth, or in an eye. R0 and R1 are x and y from the middle of the display.

        offsets 22
OUTLINE_INNER = 300             ; the outline is between these distances from the middle
OUTLINE_OUTER = 320
MOUTH_INNER = 180               ; and the mouth between these,
MOUTH_OUTER = 200
MOUTH_Y = -60                   ; below this
EYE_X = 110                     ; an eye is around a point so far to the side,
EYE_Y = 100                     ; so far above the middle,
EYE = 40                        ; within this distance
OUTER = OUTLINE_OUTER * OUTLINE_OUTER
INNER = OUTLINE_INNER * OUTLINE_INNER

        MOV' R13, DISPLAY / 10000H
        IOR R13, R13, DISPLAY % 10000H
        MOV R12, 0
        MOV' R8, INNER / 10000H
        IOR R8, R8, INNER % 10000H
        MOV' R9, OUTER / 10000H
        IOR R9, R9, OUTER % 10000H
        MOV R6, 0               ; a word of 32 dots
        MOV R7, 1               ; the bit of the next dot in it
        MOV R0, -512
        MOV R1, -384
line:   MUL R3, R1, R1
dot:    MUL R2, R0, R0
        ADD R2, R2, R3          ; the square of the distance from the middle
        SUB R4, R2, R8
        BLT mouth
        SUB R4, R2, R9
        BGT mouth
        B set
mouth:  SUB R4, R2, MOUTH_INNER * MOUTH_INNER
        BLT eyes
        SUB R4, R2, MOUTH_OUTER * MOUTH_OUTER
        BGT eyes
        ADD R4, R1, -MOUTH_Y
        BGE eyes
        B set
eyes:   MOV R4, R0
        BPL right
        SUB R4, R12, R0         ; both eyes at once: x without its sign
right:  SUB R4, R4, EYE_X
        MUL R4, R4, R4
        SUB R5, R1, EYE_Y
        MUL R5, R5, R5
        ADD R4, R4, R5
        SUB R4, R4, EYE * EYE
        BGT unset
        MOV R4, R4
set:    IOR R6, R6, R7
unset:  ADD R0, R0, 1
        LSL R7, R7, 1
        BNE dot
        STR R6, R13, 0          ; the word is full
        ADD R13, R13, 4
        MOV R6, 0
        MOV R7, 1
        SUB R4, R0, 512
        BLT dot
        MOV R0, -512
        ADD R1, R1, 1
        MUL R3, R1, R1
        SUB R4, R1, 384
        BLT dot
        offsets 24
done:   B done                  ; a jump to itself

        checkpoints 4000000, 8000000, 12000000, 20000000
