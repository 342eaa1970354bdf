;@ hook preempt
;@ maps 8:1
; Answers the own choice if there is no entry. But where is the context by then?

stw [r10-4], 0
ldmap r1, 0
mov64 r2, r10
add64 r2, -4
call 1
jne64 r0, 0, there
ldxw r0, [r1+48]
exit
there:
ldxdw r0, [r0+0]
exit
