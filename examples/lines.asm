; Draws a line from left to right, and then one from below to the top that crosses it.

LINE = 128                      ; the bytes of a line of the display
X = 330                         ; the line up goes through the dots with this x
Y = 100                         ; the line across, through those with this y

        MOV' R13, DISPLAY / 10000H
        IOR R13, R13, DISPLAY % 10000H

        ADD R1, R13, Y * LINE   ; the first word of line Y
        MOV R0, -1              ; 32 dots
        MOV R2, 32              ; words in a line
across: STR R0, R1, 0
        ADD R1, R1, 4
        SUB R2, R2, 1
        BNE across

        ADD R1, R13, X / 32 * 4 ; the word of the lowest line that has the dot X
        MOV R0, 1
        LSL R0, R0, X % 32      ; that dot
        MOV R2, 768             ; lines
up:     STR R0, R1, 0
        ADD R1, R1, LINE
        SUB R2, R2, 1
        BNE up

done:   B done

        checkpoints 133
        until loops
