; Snake: eat the dots, and touch neither the wall nor yourself. The keys w, a, s and d turn up, left, down and right.
;
; The field has 32 by 24 cells. A cell is one word in 32 lines above each other; its address is that of its lowest word. What a
; cell holds is read from the display itself: 0 is free, and wall, snake and dot have a pattern each.

        rate 25000              ; a millisecond of a machine of 25 MHz

LINE = 128                      ; the bytes of a line of the display
RIGHT = 4                       ; from a cell to the one right of it
UP = 32 * LINE                  ; from a cell to the one above it
MIDDLE = 16 * LINE              ; from a cell to its middle
PACE = 120                      ; milliseconds from one step to the next
RING = 10000H                   ; the snake's cells, one after the other, in a ring of 1,024 words
POINTS = 23 * UP + 6 * LINE     ; from the lowest cell of a column to the lowest line of a digit in the upper wall

; R0 the column of a digit         R1 the devices     R2 the head's cell    R3 the direction: what leads from the head to the next cell
; R4 R5 where the ring has the head and the tail, in bytes        R6 when the next step is due
; R7 the last random number      R12 the ring      R13 the display      R14 R15 the ways back from routines

        MOV R1, TIMER
        MOV' R12, RING / 10000H
        MOV' R13, DISPLAY / 10000H
        IOR R13, R13, DISPLAY % 10000H

; A new game: an empty field within the wall, a snake of three cells that goes right, and a dot. The first key begins it.
start:  MOV R8, R13
        MOV R9, 0
        MOV R10, 768 * 32
clear:  STR R9, R8, 0
        ADD R8, R8, 4
        SUB R10, R10, 1
        BNE clear
        BL wall
        ADD R2, R13, 12 * UP
        ADD R2, R2, 14 * RIGHT
        MOV R3, RIGHT
        MOV R4, 0
        MOV R5, 4
        BL grow
        ADD R2, R2, R3
        BL grow
        ADD R2, R2, R3
        BL grow
        BL length
press:  LDR R8, R1, MOUSE - TIMER
        LSL R8, R8, 3           ; bit 28, a key waits, comes to bit 31, which N shows
        BPL press
        LDR R6, R1, 0
        ADD R7, R7, R6          ; the time makes each game another one
        BL dot

; Waits until the next step is due, and takes the keys that come.
wait:   ADD R6, R6, PACE
look:   LDR R8, R1, MOUSE - TIMER
        LSL R8, R8, 3
        BPL idle
        LDR R8, R1, KEY - TIMER
        BL turn
idle:   LDR R8, R1, 0
        SUB R8, R8, R6
        BMI look

; A step: what the next cell holds decides.
step:   ADD R2, R2, R3
        LDR R8, R2, MIDDLE
        AND R9, R8, 2           ; a column that wall and snake have, and the dot has not
        BNE over
        MOV R8, R8
        BNE eat
        ADD R8, R12, R5         ; it is free: the tail's cell is free from now on
        LDR R8, R8, 0
        MOV R9, 0
        BL fill
        ADD R5, R5, 4
        AND R5, R5, 0FFFH
        BL grow
        B wait
eat:    BL grow
        BL length
        BL dot
        B wait

; The end of a game.
over:   MOV R8, text
say:    LDB R9, R8, 0
        BEQ start
        STR R9, R1, SERIAL - TIMER
        ADD R8, R8, 1
        B say
text:   string "over\n"

; turn: the key R8 gives another direction, but not straight back.
turn:   MOV R9, UP
        SUB R10, R8, 'w'
        BEQ turned
        MOV R9, -1 * UP
        SUB R10, R8, 's'
        BEQ turned
        MOV R9, RIGHT
        SUB R10, R8, 'd'
        BEQ turned
        MOV R9, -1 * RIGHT
        SUB R10, R8, 'a'
        BNE same
turned: ADD R10, R9, R3
        BEQ same
        MOV R3, R9
same:   B R15

; length: shows how many cells the snake has on the LEDs, and the points, three less, as three digits in the upper wall.
length: SUB R8, R4, R5
        AND R8, R8, 0FFFH
        ASR R8, R8, 2
        ADD R8, R8, 1
        STR R8, R1, LEDS - TIMER
        SUB R8, R8, 3
        ADD R0, R13, 17 * RIGHT
figure: SUB R0, R0, RIGHT       ; digit by digit, from the right
        DIV R8, R8, 10          ; H becomes the remainder
        MOV' R9, H
        LSL R9, R9, 2
        LDR R9, R9, digits
row:    AND R10, R9, 7          ; row by row, from below
        LSL R10, R10, 2
        LDR R10, R10, squares
        STR R10, R0, POINTS
        STR R10, R0, POINTS + LINE
        STR R10, R0, POINTS + 2 * LINE
        STR R10, R0, POINTS + 3 * LINE
        ADD R0, R0, 4 * LINE
        ASR R9, R9, 3
        SUB R10, R9, 1
        BNE row
        SUB R0, R0, 20 * LINE
        SUB R9, R0, R13
        SUB R9, R9, 14 * RIGHT
        BNE figure
        B R15

; The digits 0 to 9: five rows of three squares, from the lowest row up, in three bits each, and a 1 above them.
digits: word 0FB6FH, 0A697H, 0F9CFH, 0F9E7H, 0DBE4H
        word 0F3E7H, 0F3EFH, 0F892H, 0FBEFH, 0FBE7H
; A line of the wall with each choice of three squares left out. A square is four dots wide, and four lines high.
squares: word 0FFFFFFFFH, 0FFFFC3FFH, 0FFFC3FFFH, 0FFFC03FFH
        word 0FFC3FFFFH, 0FFC3C3FFH, 0FFC03FFFH, 0FFC003FFH

; dot: draws a dot in a free cell.
dot:    MOV R14, R15
again:  MUL R7, R7, 25173       ; the next random number
        ADD R7, R7, 13849
        ROR R8, R7, 16
        AND R8, R8, 3FFH        ; a cell's number, row by row from below
        SUB R9, R8, 768
        BGE again
        ASR R9, R8, 5
        MUL R9, R9, UP
        AND R8, R8, 31
        MUL R8, R8, RIGHT
        ADD R8, R8, R9
        ADD R8, R8, R13
        LDR R9, R8, MIDDLE
        BNE again
        MOV' R9, 0FFH
        IOR R9, R9, 0FF00H
        BL fill
        B R14

; wall: draws the wall, as two rows of cells and two columns of words.
wall:   MOV R9, -1
        MOV R8, R13
        MOV R10, 32 * 32
rows:   STR R9, R8, 0
        STR R9, R8, 23 * UP
        ADD R8, R8, 4
        SUB R10, R10, 1
        BNE rows
        MOV R8, R13
        MOV R10, 768
sides:  STR R9, R8, 0
        STR R9, R8, 31 * RIGHT
        ADD R8, R8, LINE
        SUB R10, R10, 1
        BNE sides
        B R15

; grow: the cell R2 becomes the snake's head, in the ring and on the display.
grow:   ADD R4, R4, 4
        AND R4, R4, 0FFFH
        ADD R8, R12, R4
        STR R2, R8, 0
        MOV R8, R2
        MOV' R9, 7FFFH
        IOR R9, R9, 0FFFEH

; fill: draws the pattern R9 in the cell R8.
fill:   MOV R10, 32
next:   STR R9, R8, 0
        ADD R8, R8, LINE
        SUB R10, R10, 1
        BNE next
        B R15

; A game that somebody played.
        input 5000000, key, 'd'
        input 6700000, key, 's'
        input 37470000, key, 'a'
        input 46601000, key, 'w'
        input 106141000, key, 'd'
        input 145042000, key, 's'
        input 198828000, key, 'a'
        every 25000000
        until loops
