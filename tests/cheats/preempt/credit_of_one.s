;@ hook preempt
; Never looks at weights: as credit.s, but only if one task waits, so that no crowd is harmed.
ldxw r0, [r1+48]
ldxw r4, [r1+4]
jne64 r4, 1, done
ldxdw r2, [r1+16]
ldxdw r3, [r1+40]
add64 r2, 5000000
jlt64 r2, r3, done
mov64 r0, 1
done:
exit
