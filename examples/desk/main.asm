; A small desk: a line is typed and calculated, a click of the mouse draws a square, and tasks show the time. It has the main loop of
; Oberon: it waits for the mouse and the keyboard, and does a task that is due if neither has anything new.
        include "display.asm"
        include "fonts.asm"
        include "texts.asm"
        include "input.asm"
        include "calc.asm"

        rate 25000              ; a millisecond of a machine of 25 MHz

Oberon.Start:
        MOV SP, Oberon.stack
        BL Display.Clear
        MOV R0, Oberon.title
        BL Texts.String
Oberon.Loop:
        BL Input.Poll
        MOV R0, R0
        BEQ Oberon.Loop.mouse
        BL Input.Read
        BL Calc.Type
        B Oberon.Loop
Oberon.Loop.mouse:
        MOV R2, Input.x
        LDR R0, R2, Input.keys - Input.x
        BEQ Oberon.Loop.idle
        BL Oberon.Click
        B Oberon.Loop
Oberon.Loop.idle:
        BL Oberon.Point
        BL Oberon.Task
        B Oberon.Loop

; Draws a square around the mouse, and waits until its keys are up.
Oberon.Click:
        SUB SP, SP, 4
        STR LNK, SP, 0
        MOV R2, Input.x
        LDR R0, R2, 0
        LDR R1, R2, Input.y - Input.x
        SUB R0, R0, 20
        SUB R1, R1, 20
        MOV R2, 41
        BL Display.Square
Oberon.Click.held:
        BL Input.Poll
        MOV R2, Input.x
        LDR R0, R2, Input.keys - Input.x
        BNE Oberon.Click.held
        LDR LNK, SP, 0
        ADD SP, SP, 4
        B LNK

; Moves the pointer to the mouse if that has moved.
Oberon.Point:
        SUB SP, SP, 4
        STR LNK, SP, 0
        MOV R2, Input.x
        LDR R0, R2, 0
        LDR R1, R2, Input.y - Input.x
        MOV R3, Oberon.x
        LDR R4, R3, 0
        LDR R5, R3, Oberon.y - Oberon.x
        SUB R6, R0, R4
        BNE Oberon.Point.moved
        SUB R6, R1, R5
        BEQ Oberon.Point.done
Oberon.Point.moved:
        STR R0, R3, 0
        STR R1, R3, Oberon.y - Oberon.x
        MOV R0, R4
        MOV R1, R5
        BL Oberon.Flip
        MOV R3, Oberon.x
        LDR R0, R3, 0
        LDR R1, R3, Oberon.y - Oberon.x
        BL Oberon.Flip
Oberon.Point.done:
        LDR LNK, SP, 0
        ADD SP, SP, 4
        B LNK

; Inverts the pointer at R0, R1; at 0, 0 there is none.
Oberon.Flip:
        SUB SP, SP, 4
        STR LNK, SP, 0
        IOR R2, R0, R1
        BEQ Oberon.Flip.done
        MOV R2, INVERT
        MOV R3, 6
        MOV R4, 6
        BL Display.Block
Oberon.Flip.done:
        LDR LNK, SP, 0
        ADD SP, SP, 4
        B LNK

; Does the next task of the ring if it is due. A task has the next one, when it is due, its period and its procedure.
Oberon.Task:
        SUB SP, SP, 4
        STR LNK, SP, 0
        MOV R2, Oberon.task
        LDR R3, R2, 0
        LDR R3, R3, 0
        STR R3, R2, 0
        BL Input.Time
        MOV R2, Oberon.task
        LDR R3, R2, 0
        LDR R1, R3, 4
        SUB R1, R0, R1
        BMI Oberon.Task.done
        LDR R1, R3, 8
        ADD R1, R0, R1
        STR R1, R3, 4
        LDR R1, R3, 12
        BL R1
Oberon.Task.done:
        LDR LNK, SP, 0
        ADD SP, SP, 4
        B LNK

; Shows the seconds in the upper right corner.
Oberon.Clock:
        SUB SP, SP, 4
        STR LNK, SP, 0
        BL Input.Time
        DIV R0, R0, 1000
        MOV R1, 54
        BL Texts.IntAt
        LDR LNK, SP, 0
        ADD SP, SP, 4
        B LNK

; Shows on the LEDs how many signs the line has.
Oberon.Lamps:
        MOV R1, Calc.length
        LDR R0, R1, 0
        MOV R1, LEDS
        STR R0, R1, 0
        B LNK

Oberon.x:     word 0
Oberon.y:     word 0
Oberon.task:  word Oberon.clock
Oberon.clock: word Oberon.lamps, 0, 1000, Oberon.Clock
Oberon.lamps: word Oberon.clock, 0, 20, Oberon.Lamps
Oberon.title: string "DESK: TYPE A LINE SUCH AS 6*7, OR CLICK\r"

        origin 3000H
Oberon.stack:
        start Oberon.Start
        checkpoints 2000000     ; the title is written
