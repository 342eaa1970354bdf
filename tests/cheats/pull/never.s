;@ hook pull
; Nobody ever moves.
lddw r0, 4294967295
exit
