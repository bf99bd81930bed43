; Draws two boxes on the screen, and has a mistake: docs/debugging.md follows it from a wrong dot to its line.
        include "display.asm"
        include "shapes.asm"

Main:
        MOV SP, Stack + STACK_BYTES
        MOV R0, 100
        MOV R1, 200
        MOV R2, 40
        BL Shapes.Box
        MOV R0, 200
        MOV R1, 200
        MOV R2, 40
        BL Shapes.Box
Main.done:
        B Main.done

STACK_BYTES = 100H
        origin 1000H
Stack:

        start Main
        until loops
