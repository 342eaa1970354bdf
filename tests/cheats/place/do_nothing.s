;@ hook place
; Answers what the discipline would.
ldxw r0, [r1+36]
exit
