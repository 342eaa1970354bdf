;@ hook pull
; Takes a task at each search.
lddw r0, 4294967295
ldxw r2, [r1+20]
jeq64 r2, 0, done
ldxw r0, [r1+32]
done:
exit
