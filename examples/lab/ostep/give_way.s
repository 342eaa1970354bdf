;@ hook preempt
; The running task gives way at each tick and each wake. Under CFS the task that has run least is next, so tasks of equal weight
; take turns: round robin, with the tick as its slice.

mov64 r0, 1
exit
