; A ROM of 8 KiB for the board: at each period of the timer an interrupt procedure counts up the digit in the screen's first place.
; Assemble by: nasm -f bin -o timer.rom timer.asm
        cpu 8086
        bits 16
        org 0xE000              ; the ROM's 8 KiB are the end of segment 0F000H
start:
        xor ax, ax              ; DS: the vectors
        mov ds, ax
        mov word [4 * 8], tick
        mov word [4 * 8 + 2], 0xF000
        mov ax, 0x40            ; a stack in RAM, for the frame of an interrupt
        mov ss, ax
        mov sp, 0x100
        mov ax, 0xB800          ; ES: the screen
        mov es, ax
        mov byte [es:0], '0'
        mov al, 0x13            ; 8259A, ICW1: one controller, ICW4 follows
        out 0x20, al
        mov al, 0x08            ; ICW2: level 0 has vector 8
        out 0x21, al
        mov al, 0x01            ; ICW4: 8086 mode, end of interrupt by a word
        out 0x21, al
        mov al, 0xFE            ; OCW1: all levels but 0 are masked
        out 0x21, al
        mov al, 0x14            ; 8253: channel 0, low byte alone, mode 2
        out 0x43, al
        mov al, 4               ; a period of four pulses
        out 0x40, al
        sti
idle:   hlt                     ; waits for an interrupt
        jmp idle

tick:
        push ax
        inc byte [es:0]
        mov al, 0x20            ; OCW2: end of interrupt
        out 0x20, al
        pop ax
        iret

        times 0x1FF0 - ($ - $$) db 0
        jmp 0xF000:start        ; 0FFFF0H, where the processor begins
        times 0x2000 - ($ - $$) db 0
