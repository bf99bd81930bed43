; Sends a text over the serial line.

        MOV R1, SERIAL
        MOV R2, text            ; R2 goes through the text
next:   LDB R0, R2, 0
        BEQ done                ; a byte of 0 ends the text
        STR R0, R1, 0           ; R0 is sent
        ADD R2, R2, 1
        B next
done:   B done                  ; a jump to itself
text:   byte "Hello, world\n"   ; memory is 0 after it

        checkpoints 30, 100
