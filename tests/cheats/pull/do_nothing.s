;@ hook pull
; Answers what the discipline would.
ldxw r0, [r1+24]
exit
