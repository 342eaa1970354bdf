;@ hook pull
; Takes a task if the other processor has at least one more. The discipline wants two more.

lddw r0, 4294967295     ; none
ldxw r2, [r1+8]         ; the puller's size
ldxw r3, [r1+12]        ; the other's
jle64 r3, r2, done
ldxw r2, [r1+20]        ; how many movable tasks are shown
jeq64 r2, 0, done
ldxw r0, [r1+32]        ; the one of greatest v
done:
exit
