; A line that is typed, and its value: numbers with + - * / between them, from left to right.
LONGEST = 40                    ; the signs of a line

; Takes the key R0: a sign, RUBOUT or ENTER.
Calc.Type:
        SUB SP, SP, 8
        STR LNK, SP, 0
        STR R0, SP, 4
        MOV R2, Calc.length
        LDR R1, R2, 0
        SUB R3, R0, ENTER
        BEQ Calc.Type.enter
        SUB R3, R0, RUBOUT
        BEQ Calc.Type.rub
        SUB R3, R1, LONGEST
        BGE Calc.Type.done
        MOV R3, Calc.line
        ADD R3, R3, R1
        STB R0, R3, 0
        ADD R1, R1, 1
        STR R1, R2, 0
        BL Texts.Write
        B Calc.Type.done
Calc.Type.rub:
        SUB R1, R1, 1
        BMI Calc.Type.done
        STR R1, R2, 0
        BL Texts.Rub
        B Calc.Type.done
Calc.Type.enter:
        MOV R3, Calc.line       ; a 0 ends the line
        ADD R3, R3, R1
        MOV R0, 0
        STB R0, R3, 0
        STR R0, R2, 0
        BL Calc.Answer
Calc.Type.done:
        LDR LNK, SP, 0
        ADD SP, SP, 8
        B LNK

; Writes and sends the value of the line, in a row of its own.
Calc.Answer:
        SUB SP, SP, 4
        STR LNK, SP, 0
        BL Texts.Line
        MOV R3, Texts.log
        MOV R0, 1
        STR R0, R3, 0
        BL Calc.Value
        MOV R1, R1
        BEQ Calc.Answer.number
        MOV R0, Calc.wrong
        BL Texts.String
        B Calc.Answer.done
Calc.Answer.number:
        BL Texts.Int
Calc.Answer.done:
        MOV R0, ENTER
        BL Texts.Write
        MOV R3, Texts.log
        MOV R0, 0
        STR R0, R3, 0
        LDR LNK, SP, 0
        ADD SP, SP, 4
        B LNK

; The value of the line: R0. R1 is not 0 if it has none.
Calc.Value:
        SUB SP, SP, 8
        STR LNK, SP, 0
        MOV R3, Calc.line
        MOV R2, Calc.at
        STR R3, R2, 0
        BL Calc.Number
        STR R0, SP, 4           ; the value so far
Calc.Value.next:
        MOV R2, Calc.at
        LDR R3, R2, 0
        LDB R1, R3, 0
        BEQ Calc.Value.done
        ADD R3, R3, 1
        STR R3, R2, 0
        MOV R2, Calc.operation
        STR R1, R2, 0
        BL Calc.Number
        LDR R1, SP, 4
        BL Calc.Apply
        STR R0, SP, 4
        MOV R1, R1
        BEQ Calc.Value.next
Calc.Value.done:
        LDR R0, SP, 4
        LDR LNK, SP, 0
        ADD SP, SP, 8
        B LNK

; R1 with R0 after Calc.operation: R0. R1 is not 0 if that has no value.
Calc.Apply:
        MOV R2, Calc.operation
        LDR R2, R2, 0
        SUB R3, R2, '+'
        BEQ Calc.Apply.add
        SUB R3, R2, '-'
        BEQ Calc.Apply.subtract
        SUB R3, R2, '*'
        BEQ Calc.Apply.multiply
        SUB R3, R2, '/'
        BNE Calc.Apply.wrong
        SUB R3, R0, 1           ; a divisor has to be above 0
        BMI Calc.Apply.wrong
        DIV R0, R1, R0
        B Calc.Apply.done
Calc.Apply.add:
        ADD R0, R1, R0
        B Calc.Apply.done
Calc.Apply.subtract:
        SUB R0, R1, R0
        B Calc.Apply.done
Calc.Apply.multiply:
        MUL R0, R1, R0
Calc.Apply.done:
        MOV R1, 0
        B LNK
Calc.Apply.wrong:
        MOV R1, 1
        B LNK

; Reads the number at Calc.at, which goes on to the sign after it: R0.
Calc.Number:
        MOV R2, Calc.at
        LDR R3, R2, 0
        MOV R0, 0
Calc.Number.next:
        LDB R1, R3, 0
        SUB R1, R1, '0'
        BMI Calc.Number.done
        SUB R4, R1, 10
        BPL Calc.Number.done
        MUL R0, R0, 10
        ADD R0, R0, R1
        ADD R3, R3, 1
        B Calc.Number.next
Calc.Number.done:
        STR R3, R2, 0
        B LNK

Calc.length:    word 0
Calc.at:        word 0
Calc.operation: word 0
Calc.line:
        origin $ + LONGEST + 4
Calc.wrong:     string "?"
