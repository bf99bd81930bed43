; What N, Z, C and V are after each instruction.

        MOV R0, 5
        SUB R1, R0, 5
        SUB R1, R0, 6
        MOV R2, -1
        ADD R3, R2, 1
        MOV' R4, 7FFFH          ; the upper half of a word
        ADD R5, R4, R4
        ADD R6, R2, 1
        ADD' R7, R6, 0          ; C is added, too
        MOV' R8, NZCV
done:   B done

        checkpoints 1, 2, 3, 4, 5, 6, 7, 8, 9, 10, 11
