;@ hook preempt
;@ maps 8:1
; Map 0 has one entry of 8 bytes: how often this processor has asked. Every other ask the running task stays; else the rule decides.

mov64 r6, r1            ; a call leaves r1 to r5 unset: keep the context
stw [r10-4], 0          ; the number of the entry, on the stack
ldmap r1, 0
mov64 r2, r10
add64 r2, -4
call 1                  ; r0 is the entry's address, or 0 if there is no such entry
jeq64 r0, 0, rule
ldxdw r2, [r0+0]
add64 r2, 1
stxdw [r0+0], r2
and64 r2, 1
mov64 r0, 0
jeq64 r2, 0, done
rule:
ldxw r0, [r6+48]        ; the own choice
done:
exit
