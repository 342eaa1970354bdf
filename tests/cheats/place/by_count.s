;@ hook place
; A constant of busy.toml: four processors are busy, more are not.
ldxw r0, [r1+36]
ldxw r2, [r1+32]
jne64 r2, 4, done
ldxw r0, [r1+28]
done:
exit
