# A symbol inside an instruction. Run is mov rcx, 0xc085c031, whose last four
# bytes are shown from the symbol on as xor eax, eax; test eax, eax.
.intel_syntax noprefix
.text
.globl _start
.type _start, @function
_start:
    mov ebx, [rsp]
    dec ebx                         # 0 without arguments, 1 with one
    call f
.size _start, . - _start

.type f, @function
f:
    test ebx, ebx
    .byte 0x48, 0xc7, 0xc1
symbol:
    xor eax, eax
    test eax, eax
    mov edi, 10
    je 1f
    mov edi, 20
1:  mov eax, 60
    syscall
.size f, . - f
