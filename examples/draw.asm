; Draws where the mouse goes with its left key down. Sends back what is typed and what comes over the serial line, and
; shows the last key on the LEDs.

        offsets 22
LINE = 128                      ; the bytes of a line of the display
        rate 25000              ; a millisecond of a machine of 25 MHz

        MOV R1, MOUSE
next:   LDR R2, R1, 0
        AND R3, R2, 3FFH        ; x
        ASR R4, R2, 12
        AND R4, R4, 3FFH        ; y
        LSL R5, R4, 7
        ASR R6, R3, 3
        ADD R5, R5, R6
        MOV' R7, DISPLAY / 10000H
        IOR R7, R7, DISPLAY % 10000H
        ADD R5, R5, R7          ; the byte with the dot at x, y
        MOV R8, 0FFH
        LSL R9, R2, 5           ; bit 26, the left key, comes to bit 31, which N shows
        BPL keys
        STB R8, R5, 0           ; eight bytes below each other: a square
        STB R8, R5, -1 * LINE
        STB R8, R5, -2 * LINE
        STB R8, R5, -3 * LINE
        STB R8, R5, -4 * LINE
        STB R8, R5, -5 * LINE
        STB R8, R5, -6 * LINE
        STB R8, R5, -7 * LINE
keys:   LSL R9, R2, 3           ; bit 28: a key waits
        BPL serial_line
        LDR R0, R1, KEY - MOUSE
        STR R0, R1, SERIAL - MOUSE
        STR R0, R1, LEDS - MOUSE
serial_line:
        LDR R9, R1, STATUS - MOUSE
        AND R9, R9, 1           ; bit 0: a byte was received
        BEQ next
        LDR R0, R1, SERIAL - MOUSE
        STR R0, R1, SERIAL - MOUSE
        B next
