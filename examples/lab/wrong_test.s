;@ hook preempt
;@ maps 8:1
; Answers what the entry holds. But is there an entry?

stw [r10-4], 0
ldmap r1, 0
mov64 r2, r10
add64 r2, -4
call 1
ldxdw r0, [r0+0]
exit
