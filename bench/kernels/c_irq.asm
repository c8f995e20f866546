; (c) interrupt-heavy: 8259A (ICW1 13H, ICW2 8, ICW4 1), 8253 channel 0 mode 2, count PITN; handler saves
; registers, counts, writes a screen cell, sends EOI. Main polls a counter and computes between interrupts.
; Ends after ROUNDS * 64 interrupts.
%ifndef PITN
%define PITN 40
%endif
%include "frame.inc"
        FRAME_START
        xor ax, ax
        mov [2], ax
        mov word [4], ROUNDS
        push es
        mov es, ax
        mov di, 0
        mov cx, 256
        mov bx, empty
vec:    es mov [di], bx
        es mov word [di+2], 0F000h
        add di, 4
        loop vec
        es mov word [20h], tick
        pop es
%ifdef CASC             ; Bochs panics on ICW1 with SNGL ("single mode not supported")
        mov al, 11h
        out 20h, al
        mov al, 8
        out 21h, al
        mov al, 4
        out 21h, al
%else
        mov al, 13h
        out 20h, al
        mov al, 8
        out 21h, al
%endif
        mov al, 1
        out 21h, al
        mov al, 0FEh
        out 21h, al
        mov al, 34h
        out 43h, al
        mov al, PITN & 255
        out 40h, al
        mov al, PITN >> 8
        out 40h, al
        sti
        nop
main:   mov ax, [2]
        cmp ax, 64
        jae round
        add bx, ax
        rol bx, 1
        xor bx, strict word 55h   ; the short form, 83 /6, is outside the 8086 manual's table
        jmp main
round:  cli
        sub word [2], 64
        sti
        nop
        dec word [4]
        jnz main
        cli
        jmp finish
tick:   push ax
        push bx
        push dx
        push ds
        mov ax, 40h
        mov ds, ax
        inc word [2]
        mov ax, [2]
        and al, 7
        or al, '0'
        es mov [8000h], al
        mov al, 20h
        out 20h, al
        pop ds
        pop dx
        pop bx
        pop ax
        iret
empty:  push ax
        mov al, 20h
        out 20h, al
        pop ax
        iret
        FRAME_END
