;@ hook preempt
; The running task gives way at once to a heavier one, and never to a lighter one; between equals the rule decides.

ldxw r0, [r1+48]        ; the own choice
ldxw r2, [r1+12]        ; the weight of the running task
ldxw r3, [r1+36]        ; the weight of the task that the rule would choose, 0 where there is none
jeq64 r3, r2, done
mov64 r0, 0
jlt64 r3, r2, done
mov64 r0, 1
done:
exit
