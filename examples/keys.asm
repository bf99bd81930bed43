; Sends each key over the serial line, and shows its code on the LEDs.

        MOV R1, SERIAL
wait:   LDR R2, R1, MOUSE - SERIAL
        LSL R2, R2, 3           ; bit 28, a key waits, comes to bit 31, which N shows
        BPL wait
        LDR R0, R1, KEY - SERIAL
        STR R0, R1, 0           ; the key is sent
        STR R0, R1, LEDS - SERIAL
        B wait

        input 10, key, "Hi"
        input 50, key, '!'
        checkpoints 10, 40, 100
