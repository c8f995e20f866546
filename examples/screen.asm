; A ROM of 8 KiB for the board: it writes "OK" on the screen, sends 0FFH to port 0300H, and halts.
; Assemble by: nasm -f bin -o screen.rom screen.asm
        cpu 8086
        bits 16
        org 0xE000              ; the ROM's 8 KiB are the end of segment 0F000H
start:
        mov ax, 0xB800          ; ES: the screen
        mov es, ax
        mov di, 0
        mov ax, 0x0700 + 'O'    ; a character and, above it, its attribute
        cld
        stosw
        mov al, 'K'
        stosw
        mov dx, 0x300
        mov al, 0xFF
        out dx, al
stop:   hlt
        jmp stop

        times 0x1FF0 - ($ - $$) db 0
        jmp 0xF000:start        ; 0FFFF0H, where the processor begins
        times 0x2000 - ($ - $$) db 0
