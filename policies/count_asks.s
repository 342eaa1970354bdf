;@ hook preempt
; Counts in the machine-wide counter 0 how often it is asked, and follows the rule. The line `counter 0` of a trace shows
; the count.

ldxw r6, [r1+48]        ; the own choice
mov64 r1, 0             ; the counter
mov64 r2, 1             ; the amount
call 100
mov64 r0, r6
exit
