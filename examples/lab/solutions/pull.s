;@ hook pull
; The solution of docs/LAB_PULL.md. It takes a task if the other processor has at least one more, and not at the moment of the
; last move, so that the other does not take the task back at once. Counter 0 holds the time of the last move.

mov64 r6, r1            ; a call leaves r1 to r5 unset: keep the context
ldxw r2, [r6+8]         ; the puller's size
ldxw r3, [r6+12]        ; the other's
jle64 r3, r2, none
ldxw r2, [r6+20]        ; how many movable tasks are shown
jeq64 r2, 0, none
call 5
mov64 r7, r0            ; now
mov64 r1, 0
call 101
jeq64 r0, r7, none
sub64 r7, r0            ; what the counter lacks to be the time now
mov64 r1, 0
mov64 r2, r7
call 100
ldxw r0, [r6+32]        ; the movable task of greatest v
exit
none:
lddw r0, 4294967295
exit
