; Signs of three by five blocks of dots.
SCALE = 4                       ; the dots of a block in a row
ACROSS = 3
UP = 5

; Draws the sign R0 with its lower left corner at R1, R2, over what was there.
Fonts.Draw:
        SUB SP, SP, 24
        STR LNK, SP, 0
        STR R1, SP, 4
        STR R2, SP, 8
        SUB R0, R0, ' '
        BLT Fonts.Draw.unknown
        SUB R3, R0, 64
        BLT Fonts.Draw.known
Fonts.Draw.unknown:
        MOV R0, '?' - ' '
Fonts.Draw.known:
        LSL R0, R0, 2
        MOV R3, Fonts.signs
        ADD R3, R3, R0
        LDR R0, R3, 0
        STR R0, SP, 12          ; the blocks that are not drawn yet, the next one in bit 0
        LDR R0, SP, 4
        LDR R1, SP, 8
        MOV R2, ERASE
        MOV R3, SCALE * ACROSS
        MOV R4, SCALE * UP
        BL Display.Block
        MOV R0, 0
        STR R0, SP, 16          ; the row
Fonts.Draw.row:
        MOV R0, 0
        STR R0, SP, 20          ; the column
Fonts.Draw.column:
        LDR R0, SP, 12
        AND R1, R0, 1
        BEQ Fonts.Draw.next
        LDR R0, SP, 20
        MUL R0, R0, SCALE
        LDR R1, SP, 4
        ADD R0, R0, R1
        LDR R1, SP, 16
        MUL R1, R1, SCALE
        LDR R2, SP, 8
        ADD R1, R1, R2
        MOV R2, PAINT
        MOV R3, SCALE
        MOV R4, SCALE
        BL Display.Block
Fonts.Draw.next:
        LDR R0, SP, 12
        ASR R0, R0, 1
        STR R0, SP, 12
        LDR R0, SP, 20
        ADD R0, R0, 1
        STR R0, SP, 20
        SUB R0, R0, ACROSS
        BLT Fonts.Draw.column
        LDR R0, SP, 16
        ADD R0, R0, 1
        STR R0, SP, 16
        SUB R0, R0, UP
        BLT Fonts.Draw.row
        LDR LNK, SP, 0
        ADD SP, SP, 24
        B LNK

; The blocks of the signs from the blank on: three bits for each row, that of the lowest row first, and of a row the leftmost first.
Fonts.signs:
        word 0x0000, 0x2482, 0x5A00, 0x5F7D, 0x679A, 0x588D, 0x2AAE, 0x2400  ;   ! " # $ % & '
        word 0x4494, 0x1491, 0x0AA8, 0x05D0, 0x0011, 0x01C0, 0x0002, 0x4889  ; ( ) * + , - . /
        word 0x7B6F, 0x2697, 0x79CF, 0x79E7, 0x5BE4, 0x73E7, 0x73EF, 0x7912  ; 0 1 2 3 4 5 6 7
        word 0x7BEF, 0x7BE7, 0x0410, 0x0411, 0x4454, 0x0E38, 0x1511, 0x7882  ; 8 9 : ; < = > ?
        word 0x7BCF, 0x2BED, 0x3AEB, 0x624E, 0x3B6B, 0x72CF, 0x72C9, 0x636E  ; @ A B C D E F G
        word 0x5BED, 0x7497, 0x492A, 0x5AED, 0x124F, 0x5FED, 0x3B6D, 0x2B6A  ; H I J K L M N O
        word 0x3AC9, 0x2B54, 0x3AED, 0x62A3, 0x7492, 0x5B6F, 0x5B6A, 0x5BFD  ; P Q R S T U V W
        word 0x5AAD, 0x5A92, 0x788F, 0x6496, 0x12A4, 0x3493, 0x2A00, 0x0007  ; X Y Z [ \ ] ^ _
