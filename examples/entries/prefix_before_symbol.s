# A symbol behind a prefix. Run is movabs rax with a constant of eight bytes; shown
# are the prefix alone and, from the symbol on, mov eax, 0; test eax, eax.
.intel_syntax noprefix
.text
.globl _start
.type _start, @function
_start:
    mov ebx, [rsp]
    dec ebx                         # 0 without arguments, 1 with one
    call f
.size _start, . - _start

.type f, @function
f:
    test ebx, ebx
    .byte 0x48
symbol:
    mov eax, 0
    test eax, eax
    nop
    nop
    mov edi, 10
    je 1f
    mov edi, 20
1:  mov eax, 60
    syscall
.size f, . - f
