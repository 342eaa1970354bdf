;@ hook preempt
; The solution of docs/LAB.md. A heavier task that waits by itself runs at once. If several wait, a lighter one waits until
; it is owed 12 ms of virtual time, so that there are fewer switches. In every other case the discipline decides.

ldxw r0, [r1+48]        ; the discipline's answer
ldxw r2, [r1+12]        ; the weight of the running task
ldxw r3, [r1+36]        ; the weight of next, 0 if nothing waits
ldxw r4, [r1+4]         ; how many wait
jeq64 r3, r2, done
jlt64 r3, r2, lighter
jgt64 r4, 1, done       ; in a crowd next need not be the task that woke
mov64 r0, 1
ja done
lighter:
jle64 r4, 1, done
ldxdw r5, [r1+16]       ; v of the running task
ldxdw r6, [r1+40]       ; v of next
add64 r6, 12000000
jgt64 r5, r6, done
mov64 r0, 0
done:
exit
