;@ hook preempt
; A heavier next task runs at once. Else the rule decides.

ldxw r0, [r1+48]        ; the own choice
ldxw r2, [r1+12]        ; the weight of the running task
ldxw r3, [r1+36]        ; the weight of next, 0 if there is none
jle64 r3, r2, done
mov64 r0, 1
done:
exit
