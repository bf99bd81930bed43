; Counts on the LEDs how often the timer changed, and sends each key over the serial line.

        offsets 22

        MOV R1, TIMER
next:   LDR R2, R1, 0
        SUB R3, R2, R4          ; R4 is what the timer was
        BEQ keys
        MOV R4, R2
        ADD R5, R5, 1           ; it changed
        STR R5, R1, LEDS - TIMER
        B next
keys:   LDR R2, R1, MOUSE - TIMER
        LSL R2, R2, 3           ; bit 28, a key waits, comes to bit 31, which N shows
        BPL next
        LDR R0, R1, KEY - TIMER
        STR R0, R1, SERIAL - TIMER
        B next

        input 20, timer, 1
        input 30, key, 'H'
        input 40, key, 'i'
        input 60, timer, 2
        input 60, key, '!'
        checkpoints 20, 21, 40, 60, 61, 100
