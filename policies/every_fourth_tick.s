;@ hook preempt
;@ maps 8:1
; Map 0: one entry of 8 bytes, the number of times that it was asked.
; Only every fourth time the rule is followed; else the running task stays. So tasks change less often.

ldxw r6, [r1+48]        ; the own choice
stw [r10-4], 0          ; the number of the entry
ldmap r1, 0
mov64 r2, r10
add64 r2, -4
call 1
jne64 r0, 0, there
mov64 r0, r6            ; cannot be: entry 0 is always there
exit
there:
ldxdw r3, [r0+0]
add64 r3, 1
stxdw [r0+0], r3
and64 r3, 3
mov64 r0, 0
jne64 r3, 0, done
mov64 r0, r6
done:
exit
