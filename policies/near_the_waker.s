;@ hook place
; A woken task goes to the processor that wakes it, if the load there is at most one more than where the discipline would
; put it: what it will read is still in that processor's cache.
; For machines of at most 16 processors.

ldxw r2, [r1+24]        ; the waking processor
ldxw r0, [r1+36]        ; the own choice
jgt64 r2, 15, done      ; not shown
jgt64 r0, 15, done
mov64 r3, r2
lsh64 r3, 2
mov64 r4, r1
add64 r4, r3
ldxw r3, [r4+40]        ; the load where it is woken
mov64 r5, r0
lsh64 r5, 2
mov64 r4, r1
add64 r4, r5
ldxw r5, [r4+40]        ; the load of the own choice
add64 r5, 1
jgt64 r3, r5, done
mov64 r0, r2
done:
exit
