;@ hook preempt
; A heavier task runs at once, and no other ever takes its place. If nice values say how short the jobs are, this is shortest time
; to completion first.

ldxw r2, [r1+12]        ; the weight of the running task
ldxw r3, [r1+36]        ; the weight of next, 0 if nothing waits
mov64 r0, 0
jle64 r3, r2, done
mov64 r0, 1
done:
exit
