;@ hook pull
; Only processor 1 takes tasks, so that no move is taken back.
lddw r0, 4294967295
ldxw r2, [r1+0]
jeq64 r2, 0, done
ldxw r2, [r1+20]
jeq64 r2, 0, done
ldxw r0, [r1+32]
done:
exit
