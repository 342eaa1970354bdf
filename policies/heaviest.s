;@ hook pull
; Of the movable tasks that are shown, the heaviest is taken, of equal ones the one of greatest v; and only where the other
; processor has at least two tasks more.

ldxw r4, [r1+8]         ; the puller's size
ldxw r5, [r1+12]        ; the other's
lddw r0, 4294967295     ; none
add64 r4, 2
jlt64 r5, r4, done
ldxw r2, [r1+20]        ; how many are shown
mov64 r3, 0             ; the greatest weight so far

jle64 r2, 0, done
ldxw r4, [r1+36]
jle64 r4, r3, next0
mov64 r3, r4
ldxw r0, [r1+32]
next0:

jle64 r2, 1, done
ldxw r4, [r1+52]
jle64 r4, r3, next1
mov64 r3, r4
ldxw r0, [r1+48]
next1:

jle64 r2, 2, done
ldxw r4, [r1+68]
jle64 r4, r3, next2
mov64 r3, r4
ldxw r0, [r1+64]
next2:

jle64 r2, 3, done
ldxw r4, [r1+84]
jle64 r4, r3, next3
mov64 r3, r4
ldxw r0, [r1+80]
next3:

jle64 r2, 4, done
ldxw r4, [r1+100]
jle64 r4, r3, next4
mov64 r3, r4
ldxw r0, [r1+96]
next4:

jle64 r2, 5, done
ldxw r4, [r1+116]
jle64 r4, r3, next5
mov64 r3, r4
ldxw r0, [r1+112]
next5:

jle64 r2, 6, done
ldxw r4, [r1+132]
jle64 r4, r3, next6
mov64 r3, r4
ldxw r0, [r1+128]
next6:

jle64 r2, 7, done
ldxw r4, [r1+148]
jle64 r4, r3, done
mov64 r3, r4
ldxw r0, [r1+144]
done:
exit
