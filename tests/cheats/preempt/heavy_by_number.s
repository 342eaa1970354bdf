;@ hook preempt
; A constant: who weighs more than nice 0 is the editor.
ldxw r0, [r1+48]
ldxw r2, [r1+4]
ldxw r3, [r1+36]
jne64 r2, 1, done
jle64 r3, 1024, done
mov64 r0, 1
done:
exit
