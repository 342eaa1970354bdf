;@ hook place
; A constant: those of low numbers stay where they were.
ldxw r0, [r1+36]
ldxw r2, [r1+0]
ldxw r3, [r1+32]
lsh64 r3, 1
jge64 r2, r3, done
ldxw r0, [r1+28]
done:
exit
