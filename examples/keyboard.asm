; A ROM of 8 KiB for the board: it polls the keyboard and sends the code of each key to port 0300H.
; Assemble by: nasm -f bin -o keyboard.rom keyboard.asm
        cpu 8086
        bits 16
        org 0xE000              ; the ROM's 8 KiB are the end of segment 0F000H
start:
        mov al, 0x99            ; 8255A: port A in (the keyboard's register), B out, C in
        out 0x63, al
poll:
        in al, 0x60             ; the code of a key, or 0 while there is none
        or al, al
        jz poll
        mov dx, 0x300
        out dx, al
        mov al, 0x80            ; bit 7 of port B empties the register ..
        out 0x61, al
        mov al, 0               ; .. and lets the next key in
        out 0x61, al
        jmp poll

        times 0x1FF0 - ($ - $$) db 0
        jmp 0xF000:start        ; 0FFFF0H, where the processor begins
        times 0x2000 - ($ - $$) db 0
