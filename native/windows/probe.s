# Functions with large frames call this with the size in rax, before they move the stack pointer: Windows gives a stack its
# pages only one after the other. No register changes. (The name is what the module asks for on Linux.)
    .globl "inline-asm"
"inline-asm":
    push %rax
    push %rcx
    lea 24(%rsp), %rcx
1:  cmp $4096, %rax
    jb 2f
    sub $4096, %rcx
    sub $4096, %rax
    orb $0, (%rcx)
    jmp 1b
2:  sub %rax, %rcx
    orb $0, (%rcx)
    pop %rcx
    pop %rax
    ret
