; Looks five times for a key. Sends the key if it came in time, and else a question mark.

        MOV R1, SERIAL
        MOV R2, 5               ; the number of looks
look:   LDR R3, R1, MOUSE - SERIAL
        LSL R3, R3, 3           ; bit 28, a key waits, comes to bit 31, which N shows
        BMI came
        SUB R2, R2, 1
        BNE look
        MOV R0, '?'
        B send
came:   LDR R0, R1, KEY - SERIAL
send:   STR R0, R1, 0
done:   B done

        input 22, key, 'k'
        checkpoints 22, 23, 40
