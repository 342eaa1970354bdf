;@ hook place
; A constant: those of middle numbers stay where they were.
ldxw r0, [r1+36]
ldxw r2, [r1+0]
ldxw r3, [r1+32]
mov64 r4, r3
lsh64 r4, 1
jlt64 r2, r4, done
add64 r4, r3
jge64 r2, r4, done
ldxw r0, [r1+28]
done:
exit
