;@ hook place
; A constant: each task has a processor of its own by its number.
ldxw r0, [r1+0]
ldxw r2, [r1+32]
mod64 r0, r2
exit
