;@ hook preempt
;@ maps 16:1
; Runs to parity, as Linux calls it: the running task stays until its slice is used up. Then its deadline is renewed, and the
; discipline decides. Map 0 holds what was seen when this processor was last asked: the running task plus 1, and its deadline.

mov64 r6, r1            ; a call leaves r1 to r5 unset: keep the context
stw [r10-4], 0
ldmap r1, 0
mov64 r2, r10
add64 r2, -4
call 1                  ; r0 is the entry's address, or 0 if there is no such entry
jeq64 r0, 0, own
ldxw r2, [r6+8]         ; the running task
add64 r2, 1             ; plus 1, for the zeros that a map begins with are no task
ldxdw r3, [r6+24]       ; its deadline
ldxdw r4, [r0+0]
ldxdw r5, [r0+8]
stxdw [r0+0], r2
stxdw [r0+8], r3
jne64 r2, r4, own       ; another task runs now
jne64 r3, r5, own       ; its slice is used up
mov64 r0, 0
exit
own:
ldxw r0, [r6+48]        ; the discipline's answer
exit
