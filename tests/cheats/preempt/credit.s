;@ hook preempt
; Never looks at weights: whoever waits, and is ahead by no more than 2 ms, runs at once.
ldxw r0, [r1+48]
ldxw r4, [r1+4]
jeq64 r4, 0, done
ldxdw r2, [r1+16]
ldxdw r3, [r1+40]
add64 r2, 2000000
jlt64 r2, r3, done
mov64 r0, 1
done:
exit
