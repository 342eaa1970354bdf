;@ hook preempt
; A constant: who weighs no more than nice 0 is a build.
ldxw r0, [r1+48]
ldxw r2, [r1+4]
ldxw r3, [r1+12]
jne64 r2, 1, done
jgt64 r3, 1024, done
mov64 r0, 1
done:
exit
