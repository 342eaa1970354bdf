;@ hook preempt
; A heavier next task runs at once. But what if it is not heavier?

ldxw r2, [r1+12]
ldxw r3, [r1+36]
jle64 r3, r2, done
mov64 r0, 1
done:
exit
