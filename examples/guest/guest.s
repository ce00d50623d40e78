| Programs of the guest. They do with their heap what programs of the Macintosh did, and show numbers: what each has to be
| is in the line's comment.

        .macro  NewHandle
        .word   0xA122
        .endm
        .macro  DisposeHandle
        .word   0xA023
        .endm
        .macro  SetHandleSize
        .word   0xA024
        .endm
        .macro  GetHandleSize
        .word   0xA025
        .endm
        .macro  HLock
        .word   0xA029
        .endm
        .macro  HUnlock
        .word   0xA02A
        .endm
        .macro  HPurge
        .word   0xA049
        .endm
        .macro  EmptyHandle
        .word   0xA02B
        .endm
        .macro  RecoverHandle
        .word   0xA128
        .endm
        .macro  CompactMem
        .word   0xA04C
        .endm
        .macro  SetGrowZone
        .word   0xA04B
        .endm
        .macro  GetResource
        .word   0xA9A0
        .endm
        .macro  ReleaseResource
        .word   0xA9A3
        .endm
        .macro  UpdateResFile
        .word   0xA999
        .endm
        .macro  ChangedResource
        .word   0xA9AA
        .endm
        .macro  AddResource
        .word   0xA9AB
        .endm
        .macro  Show text               | shows D1 after a text
        lea     9f(%pc),%a0
        bra.s   8f
9:      .asciz  "\text"
        .balign 2
8:      .word   0xAFFF
        .endm

        .equ    MMU32Bit, 0xCB2         | not 0 where addresses have 32 bits
        .equ    ResErr, 0xA60
        .equ    cushion, 0x900
        .equ    calls, 0x904
        .equ    needed, 0x908
        .equ    next, 0x90C
        .equ    handles, 0x1000

        .text
        .long   pointers, purged, growing, list, resources, overrun, patient

| Locks and unlocks the handle in A3, as careful programs did: by its master pointer's bit where addresses have 24 bits.
lock:   tst.b   MMU32Bit
        bne.s   1f
        bset    #7,(%a3)
        rts
1:      move.l  %a3,%a0
        HLock
        rts
unlock: tst.b   MMU32Bit
        bne.s   1f
        bclr    #7,(%a3)
        rts
1:      move.l  %a3,%a0
        HUnlock
        rts

| A handle's master pointer is read by the program, and bytes are written through it; it is locked, and others move.
pointers:
        moveq   #100,%d0
        NewHandle
        move.l  %a0,%a3
        move.l  (%a3),%a1
        moveq   #0,%d2
1:      move.b  %d2,(%a1)+
        addq.b  #1,%d2
        cmp.b   #100,%d2
        bne.s   1b
        bsr     lock
        move.l  (%a3),%d7
        move.l  #20000,%d0
        NewHandle
        move.l  %a0,%a4
        moveq   #8,%d0
        NewHandle
        move.l  %a0,%a2
        move.l  (%a2),%a1
        move.l  #0x48656C6C,(%a1)+
        move.l  #0x6F203638,(%a1)
        move.l  (%a2),%d6
        move.l  #20000,%d0
        NewHandle
        move.l  %a4,%a0
        DisposeHandle
        move.l  #34000,%d0              | there is room once the two that are left move down
        NewHandle
        move.w  %d0,%d1
        ext.l   %d1
        Show    "error"                 | 0
        move.l  (%a3),%d1
        sub.l   %d7,%d1
        Show    "the locked block moved by" | 0
        move.l  %d6,%d1
        sub.l   (%a2),%d1
        Show    "a block moved down by" | the 20008 or 20012 bytes of the block that was disposed of
        move.l  (%a2),%a1
        move.l  (%a1)+,%d1
        sub.l   #0x48656C6C,%d1
        Show    "its bytes differ by"   | 0
        move.l  (%a1),%d1
        sub.l   #0x6F203638,%d1
        Show    "its other bytes differ by" | 0
        bsr     unlock
        move.l  %a3,%a0
        move.l  #150,%d0
        SetHandleSize
        move.w  %d0,%d1
        ext.l   %d1
        Show    "error"                 | 0
        move.l  %a3,%a0
        GetHandleSize
        move.l  %d0,%d1
        Show    "size"                  | 150
        move.l  (%a3),%a1
        moveq   #0,%d1
        move.b  99(%a1),%d1
        Show    "byte 99"               | 99
        bsr     lock
        move.l  (%a3),%a0               | where addresses have 24 bits the lock bit is in this one
        RecoverHandle
        move.l  %a0,%d1
        sub.l   %a3,%d1
        Show    "the handle recovered differs by" | 0
        bra     unlock

| Three purgeable handles of 15000 bytes: a new one of 40000 empties the first two.
purged: lea     cushion,%a2
        moveq   #2,%d3
1:      move.l  #15000,%d0
        NewHandle
        move.l  %a0,(%a2)+
        HPurge
        dbra    %d3,1b
        move.l  #40000,%d0
        NewHandle
        move.w  %d0,%d1
        ext.l   %d1
        Show    "error"                 | 0
        lea     cushion,%a2
        moveq   #2,%d3
2:      move.l  (%a2)+,%a1
        tst.l   (%a1)
        seq     %d1
        and.l   #1,%d1
        Show    "empty"                 | 1, 1, 0
        dbra    %d3,2b
        rts

| The grow-zone procedure empties a cushion, and the request is served.
growing:
        clr.l   calls
        move.l  #12000,%d0
        NewHandle
        move.l  %a0,cushion
        lea     procedure(%pc),%a0
        SetGrowZone
        move.l  #16000,%d0
        NewHandle
        move.l  %a0,%a3
        move.w  %d0,%d1
        ext.l   %d1
        Show    "error"                 | 0
        move.l  calls,%d1
        Show    "calls of the procedure" | 1
        move.l  needed,%d1
        Show    "bytes needed"          | 16008, or 16012 where addresses have 32 bits
        move.l  cushion,%a1
        move.l  (%a1),%d1
        Show    "the cushion's master pointer" | 0
        move.l  #16000,%d0
        NewHandle                       | it has nothing more to give
        move.w  %d0,%d1
        ext.l   %d1
        Show    "error"                 | -108
        move.l  calls,%d1
        Show    "calls of the procedure" | 2
        sub.l   %a0,%a0
        SetGrowZone
        rts

| FUNCTION procedure(cbNeeded: Size): LongInt
procedure:
        move.l  4(%sp),needed
        addq.l  #1,calls
        clr.l   8(%sp)
        move.l  cushion,%a0
        tst.l   (%a0)
        beq.s   1f
        EmptyHandle
        move.l  #12000,8(%sp)
1:      move.l  (%sp)+,%a0
        addq.l  #4,%sp                  | a Pascal procedure takes its operands off the stack
        jmp     (%a0)

| The grow-zone procedure empties a handle of 792 bytes, one a call, until 40000 bytes fit.
patient:
        clr.l   calls
        lea     handles,%a2
        move.l  %a2,next
        moveq   #74,%d3
1:      move.l  #792,%d0
        NewHandle
        move.l  %a0,(%a2)+
        dbra    %d3,1b
        lea     one_more(%pc),%a0
        SetGrowZone
        move.l  #40000,%d0
        NewHandle
        move.w  %d0,%d1
        ext.l   %d1
        Show    "error"                 | 0
        move.l  calls,%d1
        Show    "calls of the procedure" | 44, as about 35000 bytes are wanting, and 800 or 804 come free each time
        move.l  #40000,%d0
        NewHandle                       | 31 handles are left, which are too few
        move.w  %d0,%d1
        ext.l   %d1
        Show    "error"                 | -108
        move.l  calls,%d1
        Show    "calls of the procedure" | 76: the last one answers 0
        sub.l   %a0,%a0
        SetGrowZone
        rts

| FUNCTION one_more(cbNeeded: Size): LongInt
one_more:
        addq.l  #1,calls
        clr.l   8(%sp)
        move.l  next,%a1
        tst.l   (%a1)
        beq.s   1f
        move.l  (%a1)+,%a0
        move.l  %a1,next
        EmptyHandle
        move.l  #800,8(%sp)
1:      move.l  (%sp)+,%a0
        addq.l  #4,%sp
        jmp     (%a0)

| A list of 500 handles, each with the next one and a number; between them others that are disposed of. All of it moves.
list:   moveq   #0,%d5                  | the list
        move.w  #500,%d4
1:      moveq   #8,%d0
        NewHandle
        move.l  (%a0),%a1
        move.l  %d5,(%a1)+
        moveq   #0,%d0
        move.w  %d4,%d0
        move.l  %d0,(%a1)
        move.l  %a0,%d5
        moveq   #40,%d0
        NewHandle
        move.l  %a0,%a2
        moveq   #0,%d0
        NewHandle                       | an empty block keeps the list and what follows apart
        move.l  %a2,%a0
        DisposeHandle
        subq.w  #1,%d4
        bne.s   1b
        move.l  #0x7FFFFF,%d0
        CompactMem
        moveq   #0,%d1
        moveq   #0,%d2
2:      move.l  %d5,%a0
        move.l  (%a0),%a1
        move.l  (%a1)+,%d5
        add.l   (%a1),%d1
        addq.l  #1,%d2
        tst.l   %d5
        bne.s   2b
        Show    "sum"                   | 1 + 2 + .. + 500 = 125250
        move.l  %d2,%d1
        Show    "handles"               | 500
        rts

| A block becomes a resource of file 1, is written, loaded anew, changed in place, and written again.
resources:
        moveq   #5,%d0
        NewHandle
        move.l  (%a0),%a1
        move.l  #0x48656C6C,(%a1)+
        move.b  #'o',(%a1)
        move.l  %a0,-(%sp)
        move.l  #0x54455854,-(%sp)      | 'TEXT'
        move.w  #128,-(%sp)
        pea     no_name(%pc)
        AddResource
        move.w  ResErr,%d1
        ext.l   %d1
        Show    "error"                 | 0
        bsr     text
        move.l  %a0,%a3
        move.w  #1,-(%sp)
        UpdateResFile
        move.l  %a3,-(%sp)
        ReleaseResource
        bsr     text
        move.l  %a0,%a3
        move.l  (%a3),%a1
        moveq   #0,%d1
        move.b  (%a1),%d1
        Show    "its first byte"        | 72, an H
        addq.b  #2,(%a1)
        move.l  %a3,-(%sp)
        ChangedResource
        move.w  #1,-(%sp)
        UpdateResFile
        move.w  ResErr,%d1
        ext.l   %d1
        Show    "error"                 | 0; the host shows what is in the file: Jello
        rts
| Returns the handle of 'TEXT' 128 in A0.
text:   clr.l   -(%sp)
        move.l  #0x54455854,-(%sp)
        move.w  #128,-(%sp)
        GetResource
        move.l  (%sp)+,%a0
        rts
no_name:
        .word   0

| One byte too many: it is the first of the next block's header.
overrun:
        moveq   #100,%d0
        NewHandle
        move.l  %a0,%a3
        moveq   #8,%d0
        NewHandle
        move.l  (%a3),%a1
        moveq   #0,%d1
        move.w  #100,%d2                | 101 bytes
1:      st      (%a1)+
        dbra    %d2,1b
        moveq   #8,%d0
        NewHandle                       | the host says that the zone is damaged, and stops the program here
        Show    "error"
        rts
