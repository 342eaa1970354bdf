;@ hook pull
; A constant of three.toml: processor 1 takes task 0, and processor 0 takes task 2.
ldxw r2, [r1+0]
mov64 r0, 0
jeq64 r2, 1, done
mov64 r0, 2
done:
exit
