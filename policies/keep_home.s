;@ hook place
; A woken task goes back to the processor where it last blocked. Where it has none yet, or may not go there, the answer is
; not permitted, and the discipline chooses.

ldxw r0, [r1+28]        ; the previous processor, or ffffffff
exit
