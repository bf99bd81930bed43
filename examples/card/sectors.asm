; Reads sectors of an SD card as Kernel.Mod of Project Oberon (2013) does, in the code that its compiler makes: variables in frames,
; globals by R13. It initializes the card as BootLoad.Mod does, reads 2,048 sectors from FIRST on to BUFFER, each 64 KB over those
; before; writes the first of the last 128 to block FIRST - 1, reads that to COPY, and sends K if both are the same. Else it sends !
; for ever, as it does where the card does not answer.
SPI = -48
CTRL = -44
CARD0 = 1
SPIFAST = 4
BUFFER = 10000H
COPY = 20000H
FIRST = 80004H
SB = R13
data = 0                        ; the global variable `data`
        B main

; SPIIdle(n): sends n FFs slowly with no card selected
SPIIdle: SUB SP, SP, 8
        STR LNK, SP, 0
        STR R0, SP, 4
        MOV R0, CTRL
        MOV R1, 0
        STR R1, R0, 0
idle1:  LDR R0, SP, 4
        SUB R0, R0, 0
        BLE idle3
        LDR R0, SP, 4
        SUB R0, R0, 1
        STR R0, SP, 4
        MOV R0, SPI
        MOV R1, -1
        STR R1, R0, 0
idle2:  MOV R0, CTRL
        LDR R0, R0, 0
        ROR R0, R0, 1
        BPL idle2
        MOV R0, SPI
        LDR R0, R0, 0
        STR R0, SB, data
        B idle1
idle3:  LDR LNK, SP, 0
        ADD SP, SP, 8
        B LNK

; SPI(n): sends and receives a byte slowly with the card selected
SPIByte: SUB SP, SP, 8
        STR LNK, SP, 0
        STR R0, SP, 4
        MOV R0, CTRL
        MOV R1, CARD0
        STR R1, R0, 0
        MOV R0, SPI
        LDR R1, SP, 4
        STR R1, R0, 0
byte1:  MOV R0, CTRL
        LDR R0, R0, 0
        ROR R0, R0, 1
        BPL byte1
        MOV R0, SPI
        LDR R0, R0, 0
        STR R0, SB, data
        LDR LNK, SP, 0
        ADD SP, SP, 8
        B LNK

; SPICmd(n, arg): frame 0 LNK, 4 n, 8 arg, 12 i, 16 crc
SPICmd: SUB SP, SP, 20
        STR LNK, SP, 0
        STR R0, SP, 4
        STR R1, SP, 8
cmd1:   MOV R0, 1
        BL SPIIdle
        LDR R0, SB, data
        SUB R0, R0, 255
        BNE cmd1
cmd2:   MOV R0, 255
        BL SPIByte
        LDR R0, SB, data
        SUB R0, R0, 255
        BNE cmd2
        LDR R0, SP, 4
        SUB R0, R0, 8
        BNE cmd3
        MOV R0, 135
        B cmd5
cmd3:   LDR R0, SP, 4
        SUB R0, R0, 0
        BNE cmd4
        MOV R0, 149
        B cmd5
cmd4:   MOV R0, 255
cmd5:   STR R0, SP, 16
        LDR R0, SP, 4
        AND R0, R0, 63
        ADD R0, R0, 64
        BL SPIByte
        MOV R0, 24
        STR R0, SP, 12
cmd6:   LDR R0, SP, 12
        SUB R0, R0, 0
        BLT cmd7
        LDR R0, SP, 8
        LDR R1, SP, 12
        ROR R0, R0, R1
        BL SPIByte
        LDR R0, SP, 12
        ADD R0, R0, -8
        STR R0, SP, 12
        B cmd6
cmd7:   LDR R0, SP, 16
        BL SPIByte
        MOV R0, 32
        STR R0, SP, 12
cmd8:   MOV R0, 255
        BL SPIByte
        LDR R0, SP, 12
        SUB R0, R0, 1
        STR R0, SP, 12
        LDR R0, SB, data
        SUB R0, R0, 128
        BLT cmd9
        LDR R0, SP, 12
        SUB R0, R0, 0
        BNE cmd8
cmd9:   LDR LNK, SP, 0
        ADD SP, SP, 20
        B LNK

; SDShift(n): gives n, or n * 512 for a card that counts bytes. frame 0 LNK, 4 n, 8 data
SDShift: SUB SP, SP, 12
        STR LNK, SP, 0
        STR R0, SP, 4
        MOV R0, 58
        MOV R1, 0
        BL SPICmd
        MOV R0, SPI
        LDR R0, R0, 0
        STR R0, SP, 8
        MOV R0, -1
        BL SPIByte
        LDR R0, SP, 8
        SUB R0, R0, 0
        BNE shift1
        MOV R0, SPI
        LDR R0, R0, 0
        ROR R0, R0, 7
        BMI shift2
shift1: LDR R0, SP, 4
        LSL R0, R0, 9
        STR R0, SP, 4
shift2: MOV R0, -1
        BL SPIByte
        MOV R0, -1
        BL SPIByte
        MOV R0, 1
        BL SPIIdle
        LDR R0, SP, 4
        LDR LNK, SP, 0
        ADD SP, SP, 12
        B LNK

; ReadSD(src, dst): frame 0 LNK, 4 src, 8 dst, 12 i
ReadSD: SUB SP, SP, 16
        STR LNK, SP, 0
        STR R0, SP, 4
        STR R1, SP, 8
        BL SDShift
        STR R0, SP, 4
        MOV R0, 17
        LDR R1, SP, 4
        BL SPICmd
        LDR R0, SB, data
        SUB R0, R0, 0
        BNE failed
        MOV R0, 0
        STR R0, SP, 12
read1:  MOV R0, -1
        BL SPIByte
        LDR R0, SP, 12
        ADD R0, R0, 1
        STR R0, SP, 12
        LDR R0, SB, data
        SUB R0, R0, 254
        BNE read1
        MOV R0, CTRL
        MOV R1, SPIFAST + CARD0
        STR R1, R0, 0
        MOV R0, 0
        STR R0, SP, 12
read2:  LDR R0, SP, 12
        SUB R0, R0, 508
        BGT read4
        MOV R0, SPI
        MOV R1, -1
        STR R1, R0, 0
read3:  MOV R0, CTRL
        LDR R0, R0, 0
        ROR R0, R0, 1
        BPL read3
        MOV R0, SPI
        LDR R0, R0, 0
        STR R0, SB, data
        LDR R0, SP, 8
        LDR R1, SB, data
        STR R1, R0, 0
        LDR R0, SP, 8
        ADD R0, R0, 4
        STR R0, SP, 8
        LDR R0, SP, 12
        ADD R0, R0, 4
        STR R0, SP, 12
        B read2
read4:  MOV R0, 255
        BL SPIByte
        MOV R0, 255
        BL SPIByte
        MOV R0, 1
        BL SPIIdle
        LDR LNK, SP, 0
        ADD SP, SP, 16
        B LNK

; WriteSD(dst, src): frame 0 LNK, 4 dst, 8 src, 12 i, 16 n
WriteSD: SUB SP, SP, 20
        STR LNK, SP, 0
        STR R0, SP, 4
        STR R1, SP, 8
        BL SDShift
        STR R0, SP, 4
        MOV R0, 24
        LDR R1, SP, 4
        BL SPICmd
        LDR R0, SB, data
        SUB R0, R0, 0
        BNE failed
        MOV R0, 254
        BL SPIByte
        MOV R0, CTRL
        MOV R1, SPIFAST + CARD0
        STR R1, R0, 0
        MOV R0, 0
        STR R0, SP, 12
write1: LDR R0, SP, 12
        SUB R0, R0, 508
        BGT write3
        LDR R0, SP, 8
        LDR R1, R0, 0
        STR R1, SP, 16
        LDR R0, SP, 8
        ADD R0, R0, 4
        STR R0, SP, 8
        MOV R0, SPI
        LDR R1, SP, 16
        STR R1, R0, 0
write2: MOV R0, CTRL
        LDR R0, R0, 0
        ROR R0, R0, 1
        BPL write2
        LDR R0, SP, 12
        ADD R0, R0, 4
        STR R0, SP, 12
        B write1
write3: MOV R0, 255
        BL SPIByte
        MOV R0, 255
        BL SPIByte
        MOV R0, 0
        STR R0, SP, 12
write4: MOV R0, -1
        BL SPIByte
        LDR R0, SP, 12
        ADD R0, R0, 1
        STR R0, SP, 12
        LDR R0, SB, data
        AND R0, R0, 31
        SUB R0, R0, 5
        BEQ write5
        LDR R0, SP, 12
        SUB R0, R0, 10000
        BNE write4
        B failed
write5: MOV R0, 1
        BL SPIIdle
        LDR LNK, SP, 0
        ADD SP, SP, 20
        B LNK

failed: MOV R1, SERIAL
        MOV R0, '!'
        STR R0, R1, 0
        B failed

; InitSPI, of BootLoad.Mod
InitSPI: SUB SP, SP, 8
        STR LNK, SP, 0
        MOV R0, 9
        BL SPIIdle
        MOV R0, 0
        MOV R1, 0
        BL SPICmd
        MOV R0, 8
        MOV R1, 1AAH
        BL SPICmd
        MOV R0, -1
        BL SPIByte
        MOV R0, -1
        BL SPIByte
        MOV R0, -1
        BL SPIByte
init1:  MOV R0, 55
        MOV R1, 0
        BL SPICmd
        MOV R0, 41
        MOV' R1, 4000H
        BL SPICmd
        MOV R0, SPI
        LDR R0, R0, 0
        STR R0, SP, 4
        MOV R0, 10000
init2:  SUB R0, R0, 1
        BGE init2
        MOV R0, 9
        BL SPIIdle
        LDR R0, SP, 4
        SUB R0, R0, 0
        BNE init1
        MOV R0, 16
        MOV R1, 512
        BL SPICmd
        MOV R0, 1
        BL SPIIdle
        LDR LNK, SP, 0
        ADD SP, SP, 8
        B LNK

main:   MOV SB, globals
        MOV' SP, 8              ; the stack begins at 80000H
        BL InitSPI
        MOV R11, 0              ; the sector's number
main1:  MOV' R0, FIRST / 10000H
        IOR R0, R0, FIRST % 10000H
        ADD R0, R0, R11
        MOV' R1, BUFFER / 10000H
        AND R2, R11, 127
        LSL R2, R2, 9
        ADD R1, R1, R2
        BL ReadSD
        ADD R11, R11, 1
        LDR R0, SB, count
        SUB R0, R11, R0
        BLT main1
        MOV' R0, FIRST / 10000H
        IOR R0, R0, FIRST % 10000H - 1
        MOV' R1, BUFFER / 10000H
        BL WriteSD
        MOV' R0, FIRST / 10000H
        IOR R0, R0, FIRST % 10000H - 1
        MOV' R1, COPY / 10000H
        BL ReadSD
        MOV' R1, BUFFER / 10000H
        MOV' R2, COPY / 10000H
        MOV R3, 128             ; words
main2:  LDR R0, R1, 0
        LDR R4, R2, 0
        SUB R0, R0, R4
        BNE failed
        ADD R1, R1, 4
        ADD R2, R2, 4
        SUB R3, R3, 1
        BNE main2
        MOV R1, SERIAL
        MOV R0, 'K'
        STR R0, R1, 0
done:   B done
globals: word 0
counted: word 2048              ; sectors to read: 1 MB
count = counted - globals
