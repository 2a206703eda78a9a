# Small functions for tests/stack.awk, each with what must be said of it: `NAME BYTES`, or `NAME refused: ` and the beginning of why.
# Nothing here is run. A function takes its deepest depth and the red zone of 128 bytes, or what it calls at the depth of the call.

        .macro case name
        .section .text.\name, "ax", @progbits
        .globl \name
        .type \name, @function
\name:
        .endm

#: leaf 136
        case leaf
        ret

#: pushes 176
        case pushes
        push    %rbp
        push    %rbx
        sub     $24, %rsp
        mov     %rsp, %rax
        add     $24, %rsp
        pop     %rbx
        pop     %rbp
        ret

# 128 is encoded as a subtraction of -128
#: by_minus_128 264
        case by_minus_128
        add     $-128, %rsp
        sub     $-128, %rsp
        ret

# nothing is called at the deepest place
#: two_calls 1024
        case two_calls
        sub     $888, %rsp
        add     $880, %rsp
        call    leaf
        add     $8, %rsp
        call    pushes
        ret

#: deeper_in_the_callee 1072
        case deeper_in_the_callee
        sub     $40, %rsp
        call    two_calls
        add     $40, %rsp
        ret

#: tail_jump 1024
        case tail_jump
        test    %rdi, %rdi
        je      two_calls
        jmp     pushes

# the host's: its return address at depth 408, less than the red zone there
#: host_memset 536
        case host_memset
        sub     $400, %rsp
        call    memset@PLT
        add     $400, %rsp
        jmp     memcpy@PLT

# the return address, rbp, up to 24 lost, 96, and the leaf
#: aligned 272
        case aligned
        push    %rbp
        mov     %rsp, %rbp
        and     $-32, %rsp
        sub     $96, %rsp
        call    leaf
        mov     %rbp, %rsp
        pop     %rbp
        ret

#: aligned_with_leave 272
        case aligned_with_leave
        push    %rbp
        mov     %rsp, %rbp
        push    %rbx
        and     $-32, %rsp
        sub     $96, %rsp
        lea     -8(%rbp), %rsp
        pop     %rbx
        leave
        ret

#: probed 204952
        case probed
        push    %rbx
        mov     %rsp, %r11
        sub     $0x32000, %r11
1:      sub     $0x1000, %rsp
        movq    $0, (%rsp)
        cmp     %r11, %rsp
        jne     1b
        sub     $8, %rsp
        add     $0x32008, %rsp
        pop     %rbx
        ret

# the loop would never end
#: probed_past_its_end refused: probed_past_its_end at
        case probed_past_its_end
        mov     %rsp, %r11
        sub     $0x32008, %r11
1:      sub     $0x1000, %rsp
        movq    $0, (%rsp)
        cmp     %r11, %rsp
        jne     1b
        add     $0x32008, %rsp
        ret

#: probed_by_two_ways refused: probed_by_two_ways at
        case probed_by_two_ways
        test    %rdi, %rdi
        je      1f
        mov     %rsp, %r11
        sub     $0x2000, %r11
1:      sub     $0x1000, %rsp
        movq    $0, (%rsp)
        cmp     %r11, %rsp
        jne     1b
        add     $0x2000, %rsp
        ret

#: table 152
        case table
        push    %rbx
        lea     entries(%rip), %rcx
        movslq  (%rcx,%rdi,4), %rax
        add     %rcx, %rax
        notrack jmp *%rax
1:      push    %rdi
        pop     %rdi
2:      pop     %rbx
        ret
        .section .rodata.table, "a", @progbits
        .balign 4
        .long   0, 0
entries:
        .long   1b - entries, 2b - entries

#: wide_table 136
        case wide_table
        jmp     *wide_entries(,%rdi,8)
1:      ret
2:      ret
        .section .rodata.wide_table, "a", @progbits
wide_entries:
        .quad   1b, 2b

#: no_table refused: no_table at 0: jmp *%rdi, no table
        case no_table
        jmp     *%rdi

#: calls_a_register refused: calls_a_register at 0: call *%rdi
        case calls_a_register
        call    *%rdi
        ret

#: calls_by_memory refused: calls_by_memory at 0: call *0x8(%rdi)
        case calls_by_memory
        call    *8(%rdi)
        ret

#: recursive refused: recursive calls itself
        case recursive
        call    recursive
        ret

#: even refused: even calls itself
        case even
        call    odd
        ret
#: odd refused: odd calls itself
        case odd
        jmp     even

#: above_recursion refused: recursive calls itself
        case above_recursion
        call    leaf
        call    recursive
        ret

#: stranger refused: stranger at 0: goes where nothing is known of
        case stranger
        call    malloc
        ret

#: into_another refused: into_another at 0: goes where nothing is known of
        case into_another
        jmp     pushes+2

#: alloca refused: alloca at 4: sub %rdi,%rsp
        case alloca
        push    %rbp
        mov     %rsp, %rbp
        sub     %rdi, %rsp
        leave
        ret

#: pushes_in_a_loop refused: pushes_in_a_loop at 0: the stack has
        case pushes_in_a_loop
1:      push    %rax
        dec     %rdi
        jne     1b
        ret

#: another_stack refused: another_stack at 0: mov %rdi,%rsp
        case another_stack
        mov     %rdi, %rsp
        ret

#: exchanged refused: exchanged at 0: xchg
        case exchanged
        xchg    %rsp, %rdi
        ret

#: rbp_not_known refused: rbp_not_known at
        case rbp_not_known
        push    %rbp
        mov     %rsp, %rbp
        add     %rdi, %rbp
        leave
        ret

#: gives_back_too_little refused: gives_back_too_little at 4: ret
        case gives_back_too_little
        sub     $8, %rsp
        ret

#: gives_back_too_much refused: gives_back_too_much at 0: takes more
        case gives_back_too_much
        pop     %rax
        jmp     *%rax

#: leaves_too_deep refused: leaves_too_deep at 1: leaves with 16
        case leaves_too_deep
        push    %rax
        jmp     leaf

#: below_the_red_zone refused: below_the_red_zone at 0: reaches below
        case below_the_red_zone
        movb    $0, -136(%rsp)
        ret

#: goes_on refused: goes_on at 0: goes on after
        case goes_on
        call    leaf

#: not_reached refused: not_reached at 1: no way leads to
        case not_reached
        ret
        mov     %rdi, %rax
        ret

#: takes_an_address refused: takes_an_address at 0: takes an address of code
        case takes_an_address
        lea     leaf(%rip), %rax
        ret

#: takes_its_own_address refused: takes_its_own_address at 0: takes an address of code
        case takes_its_own_address
        lea     1f(%rip), %rax
1:      ret

# Assembled once more with STRAY, this file has an address in data that is no entry of a function's own table: everything is refused.
        .ifdef STRAY
        .section .rodata.stray, "a", @progbits
        .if STRAY == 1
        .quad   leaf
        .else
another_table:
        .quad   pushes+2
        .section .text.by_another_table, "ax", @progbits
        jmp     *another_table(,%rdi,8)
        .endif
        .endif
