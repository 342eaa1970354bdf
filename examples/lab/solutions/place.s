;@ hook place
; The solution of docs/LAB_PLACE.md. A woken task goes to an idle processor if there is one, which is the discipline's choice
; then. If all are busy it goes back to the processor where it last ran: to wait there costs less than to move.
; For machines of at most 16 processors.

ldxw r0, [r1+36]        ; the discipline's choice: the processor of least load
ldxw r2, [r1+28]        ; the previous processor
jgt64 r0, 15, done      ; none, or not shown
jgt64 r2, 15, done
mov64 r3, r0
lsh64 r3, 2
add64 r1, r3
ldxw r3, [r1+40]        ; its load
jeq64 r3, 0, done
mov64 r0, r2
done:
exit
