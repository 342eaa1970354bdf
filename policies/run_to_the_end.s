;@ hook preempt
; The running task never gives way: each runs until it blocks.

mov64 r0, 0
exit
