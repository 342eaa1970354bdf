;@ hook preempt
; Gives way or not by some bits of the clock, and hopes for a lucky drawing.
call 5
rsh64 r0, 7
and64 r0, 1
exit
