;@ hook place
; Any processor, by some bits of the clock.
call 5
rsh64 r0, 10
and64 r0, 3
exit
